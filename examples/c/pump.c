/* The rinse pump, which runs every 40 minutes: a timer that repeats. It is set once. Each poll that hands it out sets it again under the
   same key, so that this key cancels it whenever that is. */
#include "ngawdrelo.h"
#include <inttypes.h>
#include <stdio.h>

#define RINSE 9                 /* the value of a timer says what to do when it comes out */
#define EVERY UINT64_C(2400000) /* 40 minutes, in milliseconds */

NGAWDRELO_STORE(pump, 4);

/* What the pump does about an answer; this one only says it. */
static ngw_answer act(ngw_answer a) {
  switch (a.kind) {
  case NGW_KEY: printf("set, its key is %" PRIu64 "\n", ngw_key(a)); break;
  case NGW_OUT: printf("rinse at %" PRIu64 ", its key is %" PRIu64 "\n", ngw_deadline(a), ngw_key(a)); break;
  case NGW_LAST: printf("rinse for the last time at %" PRIu64 ", its key was %" PRIu64 "\n", ngw_deadline(a), ngw_key(a)); break;
  case NGW_GONE: printf("cancelled, it was due at %" PRIu64 "\n", ngw_deadline(a)); break;
  case NGW_NOTHING: printf("nothing to do\n"); break;
  case NGW_NO: printf("refused, number %" PRIu64 ": %s\n", ngw_number(a), ngw_text(ngw_number(a))); break;
  default: break;
  }
  return a;
}

int main(void) {
  ngw_answer set;
  ngw_format(&pump, 4, 1);
  set = act(ngw_insert(&pump, RINSE, EVERY, EVERY));
  if (set.kind != NGW_KEY) return 1; /* it was refused, and said so: there is nothing to wait for */
  act(ngw_poll(&pump, EVERY));
  act(ngw_poll(&pump, EVERY)); /* it is set for 2 EVERY already */
  act(ngw_poll(&pump, 2 * EVERY));
  act(ngw_poll(&pump, 3 * EVERY));
  act(ngw_remove(&pump, ngw_key(set))); /* it waits for the fourth time, still under the key that the insert answered */
  act(ngw_poll(&pump, 4 * EVERY));
  return 0;
}
