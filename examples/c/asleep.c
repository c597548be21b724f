/* An arm that sleeps from wake to wake: it asks when to look, sleeps until then, and looks. Nothing is lost by that, nothing comes out
   late, and there is an end to it (`asleep`, `on-time` and `wakes-all` of crates/promises). Here the clock is a number: a board waits for
   its timer instead. */
#include "ngawdrelo.h"
#include <inttypes.h>
#include <stdio.h>

NGAWDRELO_STORE(arm, 8);

static uint64_t now; /* the clock */

static void sleep_until(uint64_t time) {
  if (now < time) now = time;
}

int main(void) {
  /* one is due at once, others from 7 ms to five hours on, and one in the next block of 2^36 ms, which begins six hours on */
  static const uint64_t after[7] = {28800000, 420000, 7, 18000000, 90000, 1000, 0};
  const uint64_t start = (UINT64_C(1) << 36) - 21600000;
  ngw_answer a;
  int i, looks = 0;

  ngw_format(&arm, 8, 1);
  now = start;
  ngw_poll(&arm, now); /* nothing is set: this sets the store's time */
  for (i = 0; i < 7; i++) {
    a = ngw_insert(&arm, (uint64_t)i + 1, start + after[i], 0);
    if (a.kind != NGW_KEY) return 1;
  }
  for (;;) {
    a = ngw_next_wake(&arm);
    if (a.kind != NGW_WAKE) break; /* NGW_NO_WAKE: nothing is set any more */
    sleep_until(ngw_time(a));
    looks++;
    /* more than one may be due, so look until there is nothing; a look may also only sort, and hand out nothing */
    for (a = ngw_poll(&arm, now); ngw_handed(a); a = ngw_poll(&arm, now)) {
      printf("at %" PRIu64 ": %" PRIu64 ", due at %" PRIu64 "\n", now - start, ngw_value(a), ngw_deadline(a) - start);
    }
    if (a.kind != NGW_NOTHING) return 1;
  }
  if (a.kind == NGW_NO) return 1; /* NGW_E_NOT_SOUND: stop the arm, make a new store */
  printf("asleep for good after %d wakes\n", looks);
  return 0;
}
