/* Many generated calls through the header:
     soak lines CALLS SEED     writes them as lines of the bench
     soak answers CALLS SEED   writes what they are answered, as the program replay_paused must answer those lines
     soak ways CALLS SEED      asks them one by one, in runs and through the journal, and recovers: all must be the same
     soak damage CALLS SEED    changes bits anywhere in the store between calls, and writes how many were answered, and how many with 2
   Each slice ends where its page ends, with a page behind it that nobody may touch: one word too far is a fault, also in the archive. */
#ifndef _GNU_SOURCE
#define _GNU_SOURCE /* MAP_ANONYMOUS */
#endif
#include "bench.h"
#include <stddef.h>
#include <stdio.h>
#include <stdlib.h>
#include <string.h>
#include <sys/mman.h>
#include <unistd.h>

#define ROOM 1024 /* as the bench's */

#define RUN 64    /* the longest run */

static ngawdrelo store, ran, acted, recovered;
static uint8_t journal[36 << 20]; /* for 1,048,576 calls */
static uint64_t seed, keys[64], now, pausing;

static uint64_t any(void) { /* xorshift64* */
  seed ^= seed >> 12, seed ^= seed << 25, seed ^= seed >> 27;
  return seed * UINT64_C(2685821657736338717);
}

static uint64_t below(uint64_t n) { return any() % n; }

/* Memory for n things of so many bytes that ends with its page. */
static void *guarded(size_t n, size_t size) {
  size_t page = (size_t)sysconf(_SC_PAGESIZE), whole = (n * size + page - 1) / page * page;
  char *at = (char *)mmap(0, whole + page, PROT_READ | PROT_WRITE, MAP_PRIVATE | MAP_ANONYMOUS, -1, 0);
  if (at == MAP_FAILED || mprotect(at + whole, page, PROT_NONE)) exit(2);
  return at + whole - n * size;
}

/* A deadline: near or far, at times long past, too old or too far. */
static uint64_t deadline(void) {
  uint64_t far = any() >> (27 + below(37));
  switch (below(16)) {
  case 0: return now - below(now < 4000000 ? now + 1 : 4000000);
  case 1: return now + (UINT64_C(1) << 36) - 2 + below(4);
  case 2: return any();
  default: return now + far;
  }
}

static uint64_t key(void) { return below(8) ? keys[below(64)] : below(2) ? any() : (below(9) << 16) + below(ROOM); }

/* The next line, with its newline, and how long it is. */
static int next(char *line) {
  unsigned long long a = 0, b = 0, c = 0;
  unsigned kind = (unsigned)below(1024);
  if (pausing && below(4)) { /* go on with the poll in hand, whole or not */
    a = now, b = below(6);
    return b < 5 ? sprintf(line, "q %llu %llu\n", a, b) : sprintf(line, "p %llu\n", a);
  }
  if (kind < 1) {
    a = below(4) ? 1 + below(ROOM) : below(ROOM + 3), b = below(8) ? 1 + below(9) : below(2) ? 0 : (UINT64_C(1) << 48) - 2 + below(4);
    return sprintf(line, "f %llu %llu\n", a, b);
  }
  if (kind < 2) return sprintf(line, "c\n");
  if (kind < 420) {
    a = below(100), b = deadline(), c = below(8) ? 0 : any() >> (20 + below(44));
    return sprintf(line, "i %llu %llu %llu\n", a, b, c);
  }
  if (kind < 520) {
    a = key(), b = deadline();
    return sprintf(line, "s %llu %llu\n", a, b);
  }
  if (kind < 600) {
    a = key();
    return sprintf(line, "r %llu\n", a);
  }
  if (kind < 640) return sprintf(line, "w\n");
  if (kind < 660) return sprintf(line, "l\n");
  if (below(4) == 0) now += below(16) ? below(256) : any() >> (28 + below(36));
  a = below(64) ? now : now - below(now + 1), b = below(9);
  return kind < 760 ? sprintf(line, "q %llu %llu\n", a, b) : sprintf(line, "p %llu\n", a);
}

/* Keeps what the next lines are made of. */
static void note(ngw_answer a) {
  if (a.kind == NGW_KEY) keys[below(64)] = ngw_key(a);
  pausing = a.kind == NGW_NOT_YET || (pausing && a.kind == NGW_NO);
  now = pausing ? store.until : now; /* a poll in hand goes on at its own time alone */
  if (store.elapsed > now || (store.elapsed == 0 && store.hand == 65535 && below(64) == 0)) now = store.elapsed;
}

/* Changes a bit of a word of the store, or of its memory. */
static void damage(void) {
  const struct {
    void *at;
    size_t bytes;
  } parts[] = {{&store, offsetof(ngawdrelo, values)}, {store.values, 16 * ROOM}, {store.deadlines, 8 * ROOM}, {store.turns, 8 * ROOM},
               {store.nexts, 2 * ROOM}, {store.prevs, 2 * ROOM}, {store.marks, 2 * ROOM}};
  unsigned p = (unsigned)below(7);
  ((unsigned char *)parts[p].at)[below(parts[p].bytes)] ^= (unsigned char)(1u << below(8));
}

/* Memory for a store's records. */
static void make(ngawdrelo *q) {
  q->values = (uint64_t *)guarded(2 * ROOM, 8), q->deadlines = (uint64_t *)guarded(ROOM, 8), q->turns = (uint64_t *)guarded(ROOM, 8);
  q->nexts = (uint16_t *)guarded(ROOM, 2), q->prevs = (uint16_t *)guarded(ROOM, 2), q->marks = (uint16_t *)guarded(ROOM, 2);
  q->records = ROOM;
}

/* Whether two stores are the same in every word. */
static int same(const ngawdrelo *p, const ngawdrelo *q) {
  return p->elapsed == q->elapsed && p->hand == q->hand && p->until == q->until && !memcmp(p->occupied, q->occupied, sizeof p->occupied) &&
         !memcmp(p->tops, q->tops, sizeof p->tops) && !memcmp(p->heads, q->heads, sizeof p->heads) && !memcmp(p->values, q->values, 16 * ROOM) &&
         !memcmp(p->deadlines, q->deadlines, 8 * ROOM) && !memcmp(p->turns, q->turns, 8 * ROOM) && !memcmp(p->nexts, q->nexts, 2 * ROOM) &&
         !memcmp(p->prevs, q->prevs, 2 * ROOM) && !memcmp(p->marks, q->marks, 2 * ROOM);
}

static void fail(const char *what, unsigned long long call) {
  printf("%s differs at call %llu\n", what, call);
  exit(1);
}

/* Asks the command of the other stores too, and compares; `last`: whether it is the last command. */
static void other_ways(unsigned long long call, const uint64_t words[4], ngw_answer a, int last) {
  static uint64_t commands[4 * RUN], answers[6 * RUN];
  static ngw_answer firsts[RUN];
  static uint64_t many, length;
  uint64_t size, done, why, i, kept, at, ending[2];
  ngw_answer b = ngw_act(&acted, words[0], words[1], words[2], words[3], journal + length, &size);
  if (memcmp(&a.word, &b.word, sizeof a.word) || a.kind != b.kind) fail("the journal's answer", call);
  length += size;
  memcpy(commands + 4 * many, words, 4 * sizeof *words);
  firsts[many++] = a;
  if (many < RUN && below(16) && !last) return;
  ngw_run(&ran, commands, 4 * many, answers, 6 * many, &done, &why);
  if (done != many || why != NGW_WHY_NO_WORDS || !same(&store, &ran) || !same(&store, &acted)) fail("the store", call);
  for (i = 0; i < many; i++) {
    if (answers[6 * i] != (uint64_t)firsts[i].kind || memcmp(answers + 6 * i + 1, firsts[i].word, 40)) fail("the run's answer", call);
  }
  many = 0;
  if (!last) return;
  ngw_recover(&recovered, journal, length, &kept, &at, ending);
  if (kept != length || at != length || ending[0] != NGW_END_CUT || !same(&store, &recovered)) fail("what is recovered", call);
}

int main(int argc, char **argv) {
  unsigned long long calls, i, refused = 0;
  char line[120], text[120];
  uint64_t words[4];
  ngw_answer a;
  if (argc != 4) return 2;
  calls = strtoull(argv[2], 0, 10);
  if (argv[1][0] == 'w' && calls > sizeof journal / 36) return 2;
  seed = strtoull(argv[3], 0, 10) * 2 + 1;
  make(&store), make(&ran), make(&acted), make(&recovered);
  for (i = 0; i < calls; i++) {
    int n = i ? next(line) : sprintf(line, "f 1024 1\n");
    if (argv[1][0] == 'd' && i % 32 == 0) ngw_format(&store, 1 + below(ROOM), 1);
    if (argv[1][0] == 'd' && i % 32 > 24) damage();
    if (!bench_read(line, (unsigned)n - 1, 1, words)) return 1;
    a = bench_ask(&store, words);
    if (a.kind > NGW_NOT_YET) return 1;
    note(a);
    refused += ngw_number(a) == NGW_E_NOT_SOUND;
    switch (argv[1][0]) {
    case 'l': fwrite(line, 1, (size_t)n, stdout); break;
    case 'a': fwrite(text, 1, (size_t)(bench_text(text, a) - text), stdout); break;
    case 'w': other_ways(i, words, a, i + 1 == calls); break;
    default: break;
    }
  }
  if (argv[1][0] == 'w') printf("%llu calls: one by one, in runs, through the journal and recovered all is the same\n", calls);
  if (argv[1][0] == 'd') printf("%llu calls on damaged stores answered, %llu of them with 2\n", calls, refused);
  return 0;
}
