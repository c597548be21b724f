/* Lines of the bench (README, "A morning"): an answer as text, and a line as a command. For examples and tests; it needs no C library. */
#ifndef BENCH_H
#define BENCH_H
#include "ngawdrelo.h"

/* ---- an answer as text */

static inline char *bench_word(char *to, const char *word) {
  while (*word) *to++ = *word++;
  return to;
}

static inline char *bench_number(char *to, uint64_t n) {
  char digits[20];
  int i = 0;
  do digits[i++] = (char)('0' + n % 10);
  while (n /= 10);
  while (i) *to++ = digits[--i];
  return to;
}

/* The line of an answer, with its newline, into at least 120 bytes; returns its end. */
static inline char *bench_text(char *to, ngw_answer a) {
  static const struct {
    const char *word;
    int numbers;
    const char *end;
  } lines[] = {{"ok", 0, "\n"},   {"key", 1, "\n"},    {"gone", 2, "\n"}, {"out", 5, "\n"}, {"out", 5, " last\n"}, {"none", 2, "\n"},
               {"wake", 1, "\n"}, {"wake -", 0, "\n"}, {"len", 1, "\n"},  {"no", 1, "\n"},  {"yet", 2, "\n"}};
  int i;
  to = bench_word(to, lines[a.kind].word);
  for (i = 0; i < lines[a.kind].numbers; i++) {
    *to++ = ' ';
    to = bench_number(to, a.word[i]);
  }
  return bench_word(to, lines[a.kind].end);
}

/* ---- a line as a command */

/* Reads one space and a decimal with no sign and no spare zero that fits a uint64_t; returns what is behind it, or 0. */
static inline const char *bench_field(const char *at, const char *end, uint64_t *n) {
  const char *first = at + 1;
  if (at == end || *at != ' ') return 0;
  *n = 0;
  for (at = first; at < end && *at >= '0' && *at <= '9'; at++) {
    unsigned digit = (unsigned)(*at - '0');
    if (*n > UINT64_MAX / 10 || (*n == UINT64_MAX / 10 && digit > UINT64_MAX % 10)) return 0;
    *n = *n * 10 + digit;
  }
  return at == first || (at - first > 1 && *first == '0') ? 0 : at;
}

/* The four words of the command that the line of n bytes is, without its newline; 0 if it is none. `limits`: whether `q` is one. */
static inline int bench_read(const char *line, unsigned n, int limits, uint64_t words[4]) {
  static const struct {
    char letter;
    ngw_command kind;
    int fields;
  } lines[] = {{'f', NGW_ASK_FORMAT, 2}, {'i', NGW_ASK_INSERT, 3}, {'s', NGW_ASK_RESET, 2}, {'r', NGW_ASK_REMOVE, 1}, {'p', NGW_ASK_POLL, 1},
               {'w', NGW_ASK_WAKE, 0},   {'l', NGW_ASK_LENGTH, 0}, {'c', NGW_ASK_CLEAR, 0}, {'q', NGW_ASK_POLL_SOME, 2}};
  const char *at = line + 1, *end = line + n;
  int k = 0, i;
  if (n == 0 || n > 80) return 0;
  while (k < (limits ? 9 : 8) && lines[k].letter != line[0]) k++;
  if (k == (limits ? 9 : 8)) return 0;
  words[0] = (uint64_t)lines[k].kind;
  words[1] = words[2] = words[3] = 0;
  for (i = 1; i <= lines[k].fields; i++) {
    if (!(at = bench_field(at, end, &words[i]))) return 0;
  }
  return at == end;
}

/* Asks the command of these words. */
static inline ngw_answer bench_ask(ngawdrelo *q, const uint64_t w[4]) {
  switch (w[0]) {
  case NGW_ASK_FORMAT: return ngw_format(q, w[1], w[2]);
  case NGW_ASK_INSERT: return ngw_insert(q, w[1], w[2], w[3]);
  case NGW_ASK_RESET: return ngw_reset(q, w[1], w[2]);
  case NGW_ASK_REMOVE: return ngw_remove(q, w[1]);
  case NGW_ASK_POLL: return ngw_poll(q, w[1]);
  case NGW_ASK_POLL_SOME: return ngw_poll_some(q, w[1], w[2]);
  case NGW_ASK_WAKE: return ngw_next_wake(q);
  case NGW_ASK_LENGTH: return ngw_length(q);
  default: return ngw_clear(q);
  }
}
#endif
