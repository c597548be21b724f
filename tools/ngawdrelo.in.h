/* Ngawdrelo: a delay queue for C and C++, version @VERSION@. It needs no heap, no clock, no thread, and of a C library memcpy, memmove
   and memset alone.

   Proved: what each function below answers and every word that it leaves, for any words in the memory that is lent to it and any numbers.
   A wrong input, a damaged store and none at all get a number, and change nothing. There is nothing else to check before a call.

   Not proved, so the caller must keep it:
   - pointers are valid for the lengths that go with them, aligned as their type is, and do not overlap;
   - one caller at a time for each store, and none from an interrupt that may come into a call;
   - lengths and numbers are uint64_t, never size_t, also on a processor of 32 bits.
   Nor are the inline functions of this header proved, the calling convention, or the compilers.

   Written by tools/header from crates/ngawdrelo/src/lib.rt and tools/ngawdrelo.in.h: do not edit it.
   MIT licence, see NOTICE. */
#ifndef NGAWDRELO_H
#define NGAWDRELO_H
#include <stdint.h>
#ifdef __cplusplus
extern "C" {
#endif

#define NGAWDRELO_VERSION "@VERSION@"
#define NGAWDRELO_VERSION_NUMBER @NUMBER@

/* The most records that a store can have. */
#define NGAWDRELO_MOST 65535

/* A store: its own words, and where the memory for its records lies. All zero it is no store yet, and every call but format answers
   NGW_NO with NGW_E_NOT_SOUND. Lend it by its address, keep one copy only, and never put an older one back.
   Times are milliseconds that you hand in, counted from the format; only polls move the store's own. */
typedef struct ngawdrelo {
  uint64_t elapsed;      /* its time: the latest that a poll has reached */
  uint64_t occupied[6];  /* which slots of a level hold a timer */
  uint16_t tops[4];      /* how many records it has, and the heads of three lists */
  uint16_t hand;         /* the poll in hand, .. */
  uint64_t until;        /* .. and its time */
  uint16_t heads[6][64]; /* the heads of the slots */
  uint64_t *values;      /* 2 words for each record: its value and its period */
  uint64_t *deadlines;   /* 1 word for each */
  uint16_t *nexts;       /* .. */
  uint16_t *prevs;
  uint64_t *turns;
  uint16_t *marks;
  uint64_t records;      /* for how many records there is memory */
} ngawdrelo;

/* NGAWDRELO_STORE(arm, 64); makes a static store `arm` with memory for 64 records, to be formatted. N: 1 to 65535. */
#define NGAWDRELO_STORE(name, N)                                                                                                    \
  static uint64_t name##_values[2 * NGW_RECORDS(N)], name##_deadlines[NGW_RECORDS(N)], name##_turns[NGW_RECORDS(N)];                \
  static uint16_t name##_nexts[NGW_RECORDS(N)], name##_prevs[NGW_RECORDS(N)], name##_marks[NGW_RECORDS(N)];                         \
  static ngawdrelo name = {0, {0}, {0}, 0, 0, {{0}}, name##_values, name##_deadlines, name##_nexts, name##_prevs, name##_turns,     \
                           name##_marks, (uint64_t)(N)}
#define NGW_RECORDS(N) ((N) >= 1 && (N) <= NGAWDRELO_MOST ? (N) : -1)

/* The proved functions want a uint64_t aligned to 8 bytes. Where it is not (32-bit x86), this does not compile. */
struct ngw_aligned {
  char byte;
  uint64_t word;
};
typedef char ngw_a_word_is_aligned_to_8[sizeof(struct ngw_aligned) == 16 ? 1 : -1];

/* ---- answers */

/* What an answer says; behind it, the numbers that it has. */
typedef enum ngw_kind {
@KINDS@
} ngw_kind;

/* An answer: read its numbers by name, with the functions below. */
typedef struct ngw_answer {
  ngw_kind kind;
  uint64_t word[5];
} ngw_answer;

/* Whether a poll handed out a timer: NGW_OUT or NGW_LAST. */
static inline int ngw_handed(ngw_answer a) {
  return a.kind == NGW_OUT || a.kind == NGW_LAST;
}

@PARTS@

/* ---- refusals: the number of an answer NGW_NO. What was asked has changed nothing. */

enum ngw_refusal {
@NUMBERS@
};

/* What a number means, in a sentence of docs/ANSWERS.md, which says what to do too. */
static inline const char *ngw_text(uint64_t number) {
  switch (number) {
@TEXTS@
  default: return "not a number of ours";
  }
}

/* ---- commands of a run, and what else crosses as a number */

/* A command is four words: one of these, and its numbers, with 0 behind them. */
typedef enum ngw_command {
@COMMANDS@
} ngw_command;

@CODES@

/* ---- the proved functions. A slice is a pointer and how many there are; an array without a length has the length that stands there. */

@DECLARATIONS@

/* ---- the same over a store, the answer handed back */

/* Six words as an answer. */
static inline ngw_answer ngw_answer_of(const uint64_t words[6]) {
  ngw_answer a;
  int i;
  a.kind = (ngw_kind)words[0];
  for (i = 0; i < 5; i++) a.word[i] = words[i + 1];
  return a;
}

/* What of a store goes into a proved function. */
#define NGW_LEND(q)                                                                                                                 \
  &(q)->elapsed, (q)->occupied, (q)->tops, &(q)->hand, &(q)->until, (q)->heads, (q)->values, 2 * (q)->records, (q)->deadlines,      \
      (q)->records, (q)->nexts, (q)->records, (q)->prevs, (q)->records, (q)->turns, (q)->records, (q)->marks, (q)->records

@WRAPPERS@

/* A gauge of lateness: all 0 before any timer. */
typedef struct ngw_gauge {
  double smoothed, worst;
  uint64_t any;
} ngw_gauge;

/* The gauge after what a poll at `time` answered. */
static inline void ngw_gauge_note(ngw_gauge *g, uint64_t time, ngw_answer a) {
  uint64_t answer[6];
  int i;
  answer[0] = a.kind;
  for (i = 0; i < 5; i++) answer[i + 1] = a.word[i];
  ngawdrelo_gauge_note(&g->smoothed, &g->worst, &g->any, time, answer);
}

/* The light at two limits, and into `value` the lateness that it shows; NGW_LIGHT_NO where a limit is refused (NGW_E_BAD_LIMIT). */
static inline ngw_light ngw_gauge_read(const ngw_gauge *g, double slow, double late, double *value) {
  uint64_t light[2];
  ngawdrelo_gauge_read(&g->smoothed, &g->worst, &g->any, slow, late, light, value);
  return (ngw_light)light[0];
}

#ifdef __cplusplus
}
#endif
#endif
