/* Ngawdrelo: a delay queue for C and C++, version 0.14.1. It needs no heap, no clock, no thread, and of a C library memcpy, memmove
   and memset alone.

   Proved: what each function below answers and every word that it leaves, for any words in the memory that is lent to it and any numbers.
   A wrong input, a damaged store and none at all get a number, and change nothing. There is nothing else to check before a call.

   Not proved, so the caller must keep it:
   - pointers are valid for the lengths that go with them, aligned as their type is, and do not overlap;
   - one caller at a time for each store, and none from an interrupt that may come into a call;
   - lengths and numbers are uint64_t, never size_t, also on a processor of 32 bits.
   Nor are the inline functions of this header proved, the calling convention, or the compilers.

   Written by tools/header from crates/ngawdrelo/src/lib.rt and tools/ngawdrelo.in.h: do not edit it.
   MIT licence, see NOTICE. */
#ifndef NGAWDRELO_H
#define NGAWDRELO_H
#include <stdint.h>
#ifdef __cplusplus
extern "C" {
#endif

#define NGAWDRELO_VERSION "0.14.1"
#define NGAWDRELO_VERSION_NUMBER 14001

/* The most records that a store can have. */
#define NGAWDRELO_MOST 65535

/* A store: its own words, and where the memory for its records lies. All zero it is no store yet, and every call but format answers
   NGW_NO with NGW_E_NOT_SOUND. Lend it by its address, keep one copy only, and never put an older one back.
   Times are milliseconds that you hand in, counted from the format; only polls move the store's own. */
typedef struct ngawdrelo {
  uint64_t elapsed;      /* its time: the latest that a poll has reached */
  uint64_t occupied[6];  /* which slots of a level hold a timer */
  uint16_t tops[4];      /* how many records it has, and the heads of three lists */
  uint16_t hand;         /* the poll in hand, .. */
  uint64_t until;        /* .. and its time */
  uint16_t heads[6][64]; /* the heads of the slots */
  uint64_t *values;      /* 2 words for each record: its value and its period */
  uint64_t *deadlines;   /* 1 word for each */
  uint16_t *nexts;       /* .. */
  uint16_t *prevs;
  uint64_t *turns;
  uint16_t *marks;
  uint64_t records;      /* for how many records there is memory */
} ngawdrelo;

/* NGAWDRELO_STORE(arm, 64); makes a static store `arm` with memory for 64 records, to be formatted. N: 1 to 65535. */
#define NGAWDRELO_STORE(name, N)                                                                                                    \
  static uint64_t name##_values[2 * NGW_RECORDS(N)], name##_deadlines[NGW_RECORDS(N)], name##_turns[NGW_RECORDS(N)];                \
  static uint16_t name##_nexts[NGW_RECORDS(N)], name##_prevs[NGW_RECORDS(N)], name##_marks[NGW_RECORDS(N)];                         \
  static ngawdrelo name = {0, {0}, {0}, 0, 0, {{0}}, name##_values, name##_deadlines, name##_nexts, name##_prevs, name##_turns,     \
                           name##_marks, (uint64_t)(N)}
#define NGW_RECORDS(N) ((N) >= 1 && (N) <= NGAWDRELO_MOST ? (N) : -1)

/* The proved functions want a uint64_t aligned to 8 bytes. Where it is not (32-bit x86), this does not compile. */
struct ngw_aligned {
  char byte;
  uint64_t word;
};
typedef char ngw_a_word_is_aligned_to_8[sizeof(struct ngw_aligned) == 16 ? 1 : -1];

/* ---- answers */

/* What an answer says; behind it, the numbers that it has. */
typedef enum ngw_kind {
  NGW_DONE = 0,       /* format, reset and clear */
  NGW_KEY = 1,        /* insert: the key */
  NGW_GONE = 2,       /* remove: value, deadline */
  NGW_OUT = 3,        /* poll: key, value, deadline, moves, drains */
  NGW_LAST = 4,       /* poll: key, value, deadline, moves, drains, of a repeating timer that is set no more */
  NGW_NOTHING = 5,    /* poll: moves, drains */
  NGW_WAKE = 6,       /* next wake */
  NGW_NO_WAKE = 7,    /* no wake */
  NGW_LENGTH = 8,     /* length */
  NGW_NO = 9,         /* the number of the refusal */
  NGW_NOT_YET = 10,   /* poll with a limit: moves, drains of this call */
  NGW_NO_COMMAND = 11 /* act: the four words are no command; nothing has changed */
} ngw_kind;

/* An answer: read its numbers by name, with the functions below. */
typedef struct ngw_answer {
  ngw_kind kind;
  uint64_t word[5];
} ngw_answer;

/* Whether a poll handed out a timer: NGW_OUT or NGW_LAST. */
static inline int ngw_handed(ngw_answer a) {
  return a.kind == NGW_OUT || a.kind == NGW_LAST;
}

/* The key in an answer NGW_KEY, NGW_OUT, NGW_LAST; 0 in any other. */
static inline uint64_t ngw_key(ngw_answer a) {
  return a.kind == NGW_KEY || a.kind == NGW_OUT || a.kind == NGW_LAST ? a.word[0] : 0;
}

/* The value in an answer NGW_GONE, NGW_OUT, NGW_LAST; 0 in any other. */
static inline uint64_t ngw_value(ngw_answer a) {
  return a.kind == NGW_GONE ? a.word[0] : a.kind == NGW_OUT || a.kind == NGW_LAST ? a.word[1] : 0;
}

/* The deadline in an answer NGW_GONE, NGW_OUT, NGW_LAST; 0 in any other. */
static inline uint64_t ngw_deadline(ngw_answer a) {
  return a.kind == NGW_GONE ? a.word[1] : a.kind == NGW_OUT || a.kind == NGW_LAST ? a.word[2] : 0;
}

/* The moves in an answer NGW_OUT, NGW_LAST, NGW_NOTHING, NGW_NOT_YET; 0 in any other. */
static inline uint64_t ngw_moves(ngw_answer a) {
  return a.kind == NGW_NOTHING || a.kind == NGW_NOT_YET ? a.word[0] : a.kind == NGW_OUT || a.kind == NGW_LAST ? a.word[3] : 0;
}

/* The drains in an answer NGW_OUT, NGW_LAST, NGW_NOTHING, NGW_NOT_YET; 0 in any other. */
static inline uint64_t ngw_drains(ngw_answer a) {
  return a.kind == NGW_NOTHING || a.kind == NGW_NOT_YET ? a.word[1] : a.kind == NGW_OUT || a.kind == NGW_LAST ? a.word[4] : 0;
}

/* The time in an answer NGW_WAKE; 0 in any other. */
static inline uint64_t ngw_time(ngw_answer a) {
  return a.kind == NGW_WAKE ? a.word[0] : 0;
}

/* The count in an answer NGW_LENGTH; 0 in any other. */
static inline uint64_t ngw_count(ngw_answer a) {
  return a.kind == NGW_LENGTH ? a.word[0] : 0;
}

/* The number in an answer NGW_NO; 0 in any other. */
static inline uint64_t ngw_number(ngw_answer a) {
  return a.kind == NGW_NO ? a.word[0] : 0;
}

/* ---- refusals: the number of an answer NGW_NO. What was asked has changed nothing. */

enum ngw_refusal {
  NGW_E_NO_ROOM = 1,       /* Format: N is out of range, or a lent slice is too short for it. */
  NGW_E_NOT_SOUND = 2,     /* Any call but format: the store is not sound, or there is none. */
  NGW_E_FULL = 3,          /* Insert: no record is free. */
  NGW_E_TOO_FAR = 4,       /* Insert, reset: the deadline lies more than 2^36-1 ahead of elapsed. */
  NGW_E_DEAD_KEY = 6,      /* Reset, remove: the key names no timer that is set. */
  NGW_E_BACK_IN_TIME = 7,  /* Poll: now is before elapsed. */
  NGW_E_BAD_TURN = 8,      /* Format: the first turn is out of range. */
  NGW_E_BAD_LIMIT = 9,     /* The gauge's light: a limit is below zero or no number. */
  NGW_E_TIME_OVER = 10,    /* A board's tick: its time would pass 2^64-1. */
  NGW_E_TOO_OLD = 11,      /* Insert, reset: the deadline lies more than an hour below elapsed. */
  NGW_E_POLL_IN_HAND = 12, /* Insert, reset, remove, next wake, and a poll at another now: a poll is in hand. */
  NGW_E_BAD_PATCH = 13     /* The journal: a patch is opened while one is open, or closed while none is. */
};

/* What a number means, in a sentence of docs/ANSWERS.md, which says what to do too. */
static inline const char *ngw_text(uint64_t number) {
  switch (number) {
  case 1: return "the new store could not be made";
  case 2: return "there is no store, or its memory was damaged";
  case 3: return "every record is in use";
  case 4: return "the deadline is more than 795 days ahead of the store's clock";
  case 6: return "the key is dead";
  case 7: return "the time asked about is before the store's clock";
  case 8: return "the new store could not be made";
  case 9: return "a limit is below zero or is no number";
  case 10: return "a board with a 32-bit tick is at the end of its 64-bit time";
  case 11: return "the deadline is more than an hour before the store's clock";
  case 12: return "a look is in hand";
  case 13: return "a patch is open already, or none is";
  default: return "not a number of ours";
  }
}

/* ---- commands of a run, and what else crosses as a number */

/* A command is four words: one of these, and its numbers, with 0 behind them. */
typedef enum ngw_command {
  NGW_ASK_FORMAT = 1,     /* n, turn */
  NGW_ASK_INSERT = 2,     /* value, when, period */
  NGW_ASK_RESET = 3,      /* key, when */
  NGW_ASK_REMOVE = 4,     /* key */
  NGW_ASK_POLL = 5,       /* time */
  NGW_ASK_CLEAR = 6,      /* no number */
  NGW_ASK_POLL_SOME = 11, /* time, limit */
  NGW_ASK_WAKE = 12,      /* no number */
  NGW_ASK_LENGTH = 13     /* no number */
} ngw_command;

/* Why a run stopped, as a number. */
typedef enum ngw_why {
  NGW_WHY_NO_WORDS = 0,
  NGW_WHY_NO_COMMAND = 1,
  NGW_WHY_NO_ROOM = 2
} ngw_why;

/* Why reading stopped, as two words: 0 a cut, 1 a bad kind, 2 a 1 where zero is due, 3 a broken pair, or 4 and the number that a step
   gets. */
typedef enum ngw_end {
  NGW_END_CUT = 0,
  NGW_END_KIND = 1,
  NGW_END_ZERO = 2,
  NGW_END_PAIR = 3,
  NGW_END_GETS = 4
} ngw_end;

/* A reading as two words: 0 calm, 1 slow, 2 late, or 3 and the number of the refusal. */
typedef enum ngw_light {
  NGW_LIGHT_CALM = 0,
  NGW_LIGHT_SLOW = 1,
  NGW_LIGHT_LATE = 2,
  NGW_LIGHT_NO = 3
} ngw_light;

/* ---- the proved functions. A slice is a pointer and how many there are; an array without a length has the length that stands there. */

/* What every call that may change a store takes of it. */
#define NGW_LENT                                                                                                                        \
  uint64_t *elapsed, uint64_t occupied[6], uint16_t tops[4], uint16_t *hand, uint64_t *until, uint16_t heads[6][64], uint64_t *values,  \
      uint64_t values_length, uint64_t *deadlines, uint64_t deadlines_length, uint16_t *nexts, uint64_t nexts_length, uint16_t *prevs,  \
      uint64_t prevs_length, uint64_t *turns, uint64_t turns_length, uint16_t *marks, uint64_t marks_length

/* The same of one that changes nothing. */
#define NGW_SHOWN                                                                                                                         \
  const uint64_t *elapsed, const uint64_t occupied[6], const uint16_t tops[4], const uint16_t *hand, const uint64_t *until,               \
      const uint16_t heads[6][64], const uint64_t *values, uint64_t values_length, const uint64_t *deadlines, uint64_t deadlines_length,  \
      const uint16_t *nexts, uint64_t nexts_length, const uint16_t *prevs, uint64_t prevs_length, const uint64_t *turns,                  \
      uint64_t turns_length, const uint16_t *marks, uint64_t marks_length

/* The version as one number: 14001 is 0.14.1. */
uint64_t ngawdrelo_version(void);

/* A fresh store of n records, each with the first turn `turn`. What the store was before does not matter. */
void ngawdrelo_format(NGW_LENT, uint64_t n, uint64_t turn, uint64_t answer[6]);

/* A timer with the value, at the deadline `when` and then after each period, if it is not 0. */
void ngawdrelo_insert(NGW_LENT, uint64_t value, uint64_t when, uint64_t period, uint64_t answer[6]);

/* The pending timer that the key names gets the deadline `when`. */
void ngawdrelo_reset(NGW_LENT, uint64_t key, uint64_t when, uint64_t answer[6]);

/* The pending timer that the key names is taken out: its value and its deadline. */
void ngawdrelo_remove(NGW_LENT, uint64_t key, uint64_t answer[6]);

/* Hands out a timer that is due at `time`, or none. */
void ngawdrelo_poll(NGW_LENT, uint64_t time, uint64_t answer[6]);

/* A poll of at most `limit` moves: it hands out a timer that is due at `time`, or none, or tells that it is not yet done and stays in
   hand. */
void ngawdrelo_poll_some(NGW_LENT, uint64_t time, uint64_t limit, uint64_t answer[6]);

/* No timer is pending any more, and elapsed is 0. */
void ngawdrelo_clear(NGW_LENT, uint64_t answer[6]);

/* The time of the next wake. Nothing is changed. */
void ngawdrelo_next_wake(NGW_SHOWN, uint64_t answer[6]);

/* How many timers are pending. Nothing is changed. */
void ngawdrelo_length(NGW_SHOWN, uint64_t answer[6]);

/* A run of commands, each of four words, on a store that is judged once: the answers, each of six words, how many there are, and why
   there are no more. */
void ngawdrelo_run(NGW_LENT, const uint64_t *commands, uint64_t commands_length, uint64_t *answers, uint64_t answers_length, uint64_t *done,
    uint64_t *why);

/* A call of four words, as a command of a run, with the bytes to be written before its answer is given: 0, 18 or 36 of them. Words that
   are no command are told by the kind 11, and change nothing. */
void ngawdrelo_act(NGW_LENT, uint64_t kind, uint64_t a, uint64_t b, uint64_t c, uint64_t answer[6], uint8_t bytes[36], uint64_t *size);

/* Opens a patch of the journal, with the bytes to be written before its answer is given: 13 where one is open already. It asks nothing
   of a store. */
void ngawdrelo_open(uint64_t *patch, uint64_t answer[6], uint8_t bytes[36], uint64_t *size);

/* Closes the patch of the journal, with the bytes to be written before its answer is given: 13 where none is open. */
void ngawdrelo_close(uint64_t *patch, uint64_t answer[6], uint8_t bytes[36], uint64_t *size);

/* The store after the steps of a journal that are kept, from no store: the length kept, where reading stopped, and why. What the store
   was before does not matter. */
void ngawdrelo_recover(NGW_LENT, const uint8_t *bytes, uint64_t bytes_length, uint64_t *kept, uint64_t *at, uint64_t ending[2]);

/* Notes in a gauge what a poll at `time` answered. A fresh gauge is all 0. */
void ngawdrelo_gauge_note(double *smoothed, double *worst, uint64_t *any, uint64_t time, const uint64_t answer[6]);

/* What a gauge reads at two limits: the light in two words, and the lateness that it shows. */
void ngawdrelo_gauge_read(const double *smoothed, const double *worst, const uint64_t *any, double slow, double late, uint64_t light[2],
    double *value);

/* The 64-bit time, 0 at the start, moves on to the 32-bit tick of a board: 10 where it would pass 2^64-1. */
void ngawdrelo_tick_read(uint64_t *time, uint32_t tick, uint64_t answer[6]);

/* A poll at the 64-bit time that moves on to the 32-bit tick of a board. Where that is refused, with 10, nothing is asked of the store. */
void ngawdrelo_tick_poll(uint64_t *time, NGW_LENT, uint32_t tick, uint64_t answer[6]);

/* A poll of at most `limit` moves at the time that moves on to the tick of a board or, while a poll is in hand, at that poll's own time. */
void ngawdrelo_tick_poll_some(uint64_t *time, NGW_LENT, uint32_t tick, uint64_t limit, uint64_t answer[6]);

/* One line more of another machine's log, without its newline. Keys and deadlines, of 1,024 words or more each, are the inspector's own;
   the state is all 0 before the first line. */
void ngawdrelo_inspect_line(uint64_t state[4], uint64_t *keys, uint64_t keys_length, uint64_t *deadlines, uint64_t deadlines_length,
    const uint8_t *line, uint64_t line_length);

/* ---- the same over a store, the answer handed back */

/* Six words as an answer. */
static inline ngw_answer ngw_answer_of(const uint64_t words[6]) {
  ngw_answer a;
  int i;
  a.kind = (ngw_kind)words[0];
  for (i = 0; i < 5; i++) a.word[i] = words[i + 1];
  return a;
}

/* What of a store goes into a proved function. */
#define NGW_LEND(q)                                                                                                                 \
  &(q)->elapsed, (q)->occupied, (q)->tops, &(q)->hand, &(q)->until, (q)->heads, (q)->values, 2 * (q)->records, (q)->deadlines,      \
      (q)->records, (q)->nexts, (q)->records, (q)->prevs, (q)->records, (q)->turns, (q)->records, (q)->marks, (q)->records

/* A fresh store of n records, each with the first turn `turn`. What the store was before does not matter. */
static inline ngw_answer ngw_format(ngawdrelo *q, uint64_t n, uint64_t turn) {
  uint64_t answer[6];
  ngawdrelo_format(NGW_LEND(q), n, turn, answer);
  return ngw_answer_of(answer);
}

/* A timer with the value, at the deadline `when` and then after each period, if it is not 0. */
static inline ngw_answer ngw_insert(ngawdrelo *q, uint64_t value, uint64_t when, uint64_t period) {
  uint64_t answer[6];
  ngawdrelo_insert(NGW_LEND(q), value, when, period, answer);
  return ngw_answer_of(answer);
}

/* The pending timer that the key names gets the deadline `when`. */
static inline ngw_answer ngw_reset(ngawdrelo *q, uint64_t key, uint64_t when) {
  uint64_t answer[6];
  ngawdrelo_reset(NGW_LEND(q), key, when, answer);
  return ngw_answer_of(answer);
}

/* The pending timer that the key names is taken out: its value and its deadline. */
static inline ngw_answer ngw_remove(ngawdrelo *q, uint64_t key) {
  uint64_t answer[6];
  ngawdrelo_remove(NGW_LEND(q), key, answer);
  return ngw_answer_of(answer);
}

/* Hands out a timer that is due at `time`, or none. */
static inline ngw_answer ngw_poll(ngawdrelo *q, uint64_t time) {
  uint64_t answer[6];
  ngawdrelo_poll(NGW_LEND(q), time, answer);
  return ngw_answer_of(answer);
}

/* A poll of at most `limit` moves: it hands out a timer that is due at `time`, or none, or tells that it is not yet done and stays in
   hand. */
static inline ngw_answer ngw_poll_some(ngawdrelo *q, uint64_t time, uint64_t limit) {
  uint64_t answer[6];
  ngawdrelo_poll_some(NGW_LEND(q), time, limit, answer);
  return ngw_answer_of(answer);
}

/* No timer is pending any more, and elapsed is 0. */
static inline ngw_answer ngw_clear(ngawdrelo *q) {
  uint64_t answer[6];
  ngawdrelo_clear(NGW_LEND(q), answer);
  return ngw_answer_of(answer);
}

/* The time of the next wake. Nothing is changed. */
static inline ngw_answer ngw_next_wake(const ngawdrelo *q) {
  uint64_t answer[6];
  ngawdrelo_next_wake(NGW_LEND(q), answer);
  return ngw_answer_of(answer);
}

/* How many timers are pending. Nothing is changed. */
static inline ngw_answer ngw_length(const ngawdrelo *q) {
  uint64_t answer[6];
  ngawdrelo_length(NGW_LEND(q), answer);
  return ngw_answer_of(answer);
}

/* A run of commands, each of four words, on a store that is judged once: the answers, each of six words, how many there are, and why
   there are no more. */
static inline void ngw_run(ngawdrelo *q, const uint64_t *commands, uint64_t commands_length, uint64_t *answers, uint64_t answers_length,
    uint64_t *done, uint64_t *why) {
  ngawdrelo_run(NGW_LEND(q), commands, commands_length, answers, answers_length, done, why);
}

/* A call of four words, as a command of a run, with the bytes to be written before its answer is given: 0, 18 or 36 of them. Words that
   are no command are told by the kind 11, and change nothing. */
static inline ngw_answer ngw_act(ngawdrelo *q, uint64_t kind, uint64_t a, uint64_t b, uint64_t c, uint8_t bytes[36], uint64_t *size) {
  uint64_t answer[6];
  ngawdrelo_act(NGW_LEND(q), kind, a, b, c, answer, bytes, size);
  return ngw_answer_of(answer);
}

/* Opens a patch of the journal, with the bytes to be written before its answer is given: 13 where one is open already. It asks nothing
   of a store. */
static inline ngw_answer ngw_open(uint64_t *patch, uint8_t bytes[36], uint64_t *size) {
  uint64_t answer[6];
  ngawdrelo_open(patch, answer, bytes, size);
  return ngw_answer_of(answer);
}

/* Closes the patch of the journal, with the bytes to be written before its answer is given: 13 where none is open. */
static inline ngw_answer ngw_close(uint64_t *patch, uint8_t bytes[36], uint64_t *size) {
  uint64_t answer[6];
  ngawdrelo_close(patch, answer, bytes, size);
  return ngw_answer_of(answer);
}

/* The store after the steps of a journal that are kept, from no store: the length kept, where reading stopped, and why. What the store
   was before does not matter. */
static inline void ngw_recover(ngawdrelo *q, const uint8_t *bytes, uint64_t bytes_length, uint64_t *kept, uint64_t *at,
    uint64_t ending[2]) {
  ngawdrelo_recover(NGW_LEND(q), bytes, bytes_length, kept, at, ending);
}

/* The 64-bit time, 0 at the start, moves on to the 32-bit tick of a board: 10 where it would pass 2^64-1. */
static inline ngw_answer ngw_tick_read(uint64_t *time, uint32_t tick) {
  uint64_t answer[6];
  ngawdrelo_tick_read(time, tick, answer);
  return ngw_answer_of(answer);
}

/* A poll at the 64-bit time that moves on to the 32-bit tick of a board. Where that is refused, with 10, nothing is asked of the store. */
static inline ngw_answer ngw_tick_poll(ngawdrelo *q, uint64_t *time, uint32_t tick) {
  uint64_t answer[6];
  ngawdrelo_tick_poll(time, NGW_LEND(q), tick, answer);
  return ngw_answer_of(answer);
}

/* A poll of at most `limit` moves at the time that moves on to the tick of a board or, while a poll is in hand, at that poll's own time. */
static inline ngw_answer ngw_tick_poll_some(ngawdrelo *q, uint64_t *time, uint32_t tick, uint64_t limit) {
  uint64_t answer[6];
  ngawdrelo_tick_poll_some(time, NGW_LEND(q), tick, limit, answer);
  return ngw_answer_of(answer);
}

/* A gauge of lateness: all 0 before any timer. */
typedef struct ngw_gauge {
  double smoothed, worst;
  uint64_t any;
} ngw_gauge;

/* The gauge after what a poll at `time` answered. */
static inline void ngw_gauge_note(ngw_gauge *g, uint64_t time, ngw_answer a) {
  uint64_t answer[6];
  int i;
  answer[0] = a.kind;
  for (i = 0; i < 5; i++) answer[i + 1] = a.word[i];
  ngawdrelo_gauge_note(&g->smoothed, &g->worst, &g->any, time, answer);
}

/* The light at two limits, and into `value` the lateness that it shows; NGW_LIGHT_NO where a limit is refused (NGW_E_BAD_LIMIT). */
static inline ngw_light ngw_gauge_read(const ngw_gauge *g, double slow, double late, double *value) {
  uint64_t light[2];
  ngawdrelo_gauge_read(&g->smoothed, &g->worst, &g->any, slow, late, light, value);
  return (ngw_light)light[0];
}

#ifdef __cplusplus
}
#endif
#endif
