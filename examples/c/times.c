/* What a call costs on this machine by N: each judges the store first; in a run the store is judged once. Nanoseconds of processor time, the
   least of five times. Of a hundred calls 85 are resets, 10 polls and 5 next wakes, on a full store, as in the mix `reset` of docs/SPEED.md. */
#ifndef _POSIX_C_SOURCE
#define _POSIX_C_SOURCE 200809L
#endif
#include "bench.h"
#include <stdio.h>
#include <stdlib.h>
#include <time.h>

#define MOST 65535
#define RUN 1000

NGAWDRELO_STORE(store, MOST);
static uint64_t keys[MOST], commands[4 * RUN], answers[6 * RUN], sum;

static double seconds(void) {
  struct timespec t;
  clock_gettime(CLOCK_PROCESS_CPUTIME_ID, &t);
  return (double)t.tv_sec + 1e-9 * (double)t.tv_nsec;
}

static uint64_t any(void) {
  static uint64_t seed = 1;
  seed ^= seed >> 12, seed ^= seed << 25, seed ^= seed >> 27;
  return seed * UINT64_C(2685821657736338717);
}

/* RUN commands for a store of n records, all of them set; the clock goes on by a millisecond with each poll. */
static void make(uint64_t n) {
  static const uint64_t spans[3] = {60000, 3600000, 86400000};
  uint64_t i, now = store.elapsed;
  for (i = 0; i < RUN; i++) {
    uint64_t *c = commands + 4 * i, kind = any() % 100;
    c[0] = kind < 85 ? NGW_ASK_RESET : kind < 95 ? NGW_ASK_POLL : NGW_ASK_WAKE;
    c[1] = kind < 85 ? keys[any() % n] : kind < 95 ? now++ : 0;
    c[2] = kind < 85 ? now + RUN + any() % spans[any() % 3] : 0;
    c[3] = 0;
  }
}

int main(void) {
  static const uint64_t sizes[] = {16, 64, 256, 1024, 4096, 16384, MOST};
  unsigned s;
  printf("| N | a call, judged | a command of a run of %d |\n|---|---|---|\n", RUN);
  for (s = 0; s < sizeof sizes / sizeof *sizes; s++) {
    uint64_t n = sizes[s], i, calls = n < 4096 ? RUN : 64, done, why;
    double single = 1e9, run = 1e9, t;
    int round;
    if (ngw_format(&store, n, 1).kind != NGW_DONE) return 1;
    for (i = 0; i < n; i += done) { /* filled in runs: one by one would judge each time */
      uint64_t k, many = n - i < RUN ? n - i : RUN;
      for (k = 0; k < many; k++) {
        uint64_t *c = commands + 4 * k;
        c[0] = NGW_ASK_INSERT, c[1] = i + k, c[2] = 1000000 + any() % 86400000, c[3] = 0;
      }
      ngw_run(&store, commands, 4 * many, answers, 6 * many, &done, &why);
      for (k = 0; k < done; k++) keys[i + k] = answers[6 * k + 1];
      if (done != many) return 1;
    }
    for (round = 0; round < 5; round++) {
      make(n);
      t = seconds();
      for (i = 0; i < calls; i++) sum += bench_ask(&store, commands + 4 * i).word[0];
      t = (seconds() - t) / (double)calls;
      single = t < single ? t : single;
      make(n);
      t = seconds();
      ngw_run(&store, commands, 4 * RUN, answers, 6 * RUN, &done, &why);
      t = (seconds() - t) / RUN;
      run = t < run ? t : run;
    }
    printf("| %lu | %.0f ns | %.1f ns |\n", (unsigned long)n, 1e9 * single, 1e9 * run);
  }
  return sum == 0; /* so that nothing is left out */
}
