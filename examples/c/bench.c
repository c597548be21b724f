/* The bench in C: a line in, a line out, as ./replay. With -DLIMITS it knows `q now limit` too, as the program replay_paused. With -DBARE it
   needs no C library; bare.h has what it takes then, under Linux or, with -DBOARD, with no operating system at all. ROOM: the most records. */
#include "bench.h"
#ifdef BARE
#include "bare.h"
#else
#include <unistd.h>
#endif
#ifdef LIMITS
#define KNOWS_LIMITS 1
#else
#define KNOWS_LIMITS 0
#endif

#ifndef ROOM
#define ROOM 1024
#endif

NGAWDRELO_STORE(store, ROOM);

static char in[1024], out[2048], *at = out;

static void put(void) {
  const char *from = out;
  while (from < at) {
    long n = (long)write(1, from, (unsigned)(at - from));
    if (n <= 0) _exit(1);
    from += n;
  }
  at = out;
}

static void answer(const char *line, unsigned n) {
  uint64_t words[4];
  at = bench_read(line, n, KNOWS_LIMITS, words) ? bench_text(at, bench_ask(&store, words)) : bench_word(at, "bad\n");
  if (at - out > (long)sizeof out - 120) put();
}

int main(void) {
  char line[81]; /* of a longer line the first 81 bytes, which are bad already */
  unsigned kept = 0;
  long n, i;
  while ((n = (long)read(0, in, sizeof in)) > 0) {
    for (i = 0; i < n; i++) {
      if (in[i] == '\n') {
        answer(line, kept);
        kept = 0;
      } else if (kept < sizeof line) {
        line[kept++] = in[i];
      }
    }
  }
  if (kept) answer(line, kept); /* a last line needs no newline */
  put();
  return 0;
}
