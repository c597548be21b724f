/* Wrong inputs, each with the answer that it gets. Nothing has to be checked before a call but what the header's first lines say: a length that
   is too short, a damaged word, a number out of range all get a number, and change nothing. */
#include "bench.h"
#include <stdio.h>

NGAWDRELO_STORE(arm, 4);

static void say(const char *what, ngw_answer a) {
  char line[120];
  printf("%s: %.*s", what, (int)(bench_text(line, a) - line) - 1, line);
  printf("%s%s\n", a.kind == NGW_NO ? ", " : "", a.kind == NGW_NO ? ngw_text(ngw_number(a)) : "");
}

int main(void) {
  static ngawdrelo none; /* all zero: no store, and no memory for one */
  static uint64_t keys[1024], deadlines[1024], state[4];
  uint64_t commands[8] = {NGW_ASK_LENGTH, 0, 0, 0, 99, 0, 0, 0}, answers[12], done, why, kept, at, ending[2], time, size, patch;
  uint8_t bytes[36];
  double value;
  ngw_gauge gauge = {0, 0, 0};
  ngw_answer a;

  say("a poll, with no store", ngw_poll(&none, 5));
  say("a format, with no memory", ngw_format(&none, 4, 1));
  say("a format of 5, with memory for 4", ngw_format(&arm, 5, 1));
  say("a format of 0", ngw_format(&arm, 0, 1));
  say("a format of 2^64-1", ngw_format(&arm, UINT64_MAX, 1));
  say("a format with a first turn of 0", ngw_format(&arm, 4, 0));
  say("a format of 4", ngw_format(&arm, 4, 1));
  say("an insert 2^36 ahead", ngw_insert(&arm, 7, UINT64_C(1) << 36, 0));
  a = ngw_insert(&arm, 7, 70, 0);
  say("an insert", a);
  say("a remove of a key that never was", ngw_remove(&arm, 99));
  arm.marks[0] ^= 1;
  say("a poll, with a damaged mark", ngw_poll(&arm, 70));
  arm.marks[0] ^= 1;
  arm.records = 3;
  say("a poll, with a length that is too short", ngw_poll(&arm, 70));
  arm.records = 4;
  a = ngw_poll(&arm, 70);
  say("a poll, with all as it was", a);
  ngw_gauge_note(&gauge, 170, a);
  say("a remove of the key that came out", ngw_remove(&arm, ngw_key(a)));

  ngw_run(&arm, commands, 8, answers, 12, &done, &why);
  printf("a run of a command and of words that are none: %d done, why %d\n", (int)done, (int)why);
  ngw_run(&arm, commands, 7, answers, 5, &done, &why);
  printf("a run with no room for an answer: %d done, why %d\n", (int)done, (int)why);
  a = ngw_act(&arm, 99, 0, 0, 0, bytes, &size);
  printf("a step that is no command: kind %d, %d bytes\n", (int)a.kind, (int)size);
  patch = 7; /* any word but 0 says that a patch is open */
  say("an open, with a patch open", ngw_open(&patch, bytes, &size));
  printf("the flag of the patch: %d\n", (int)patch);
  say("a close", ngw_close(&patch, bytes, &size));
  say("a close, with no patch open", ngw_close(&patch, bytes, &size));
  printf("the flag of the patch: %d\n", (int)patch);

  time = UINT64_MAX;
  say("a tick at the end of time", ngw_tick_read(&time, 0));
  time = 0;
  say("a tick", ngw_tick_poll(&arm, &time, 4000000000u));
  printf("a light with a limit below zero: %d", (int)ngw_gauge_read(&gauge, -1, 5, &value));
  printf(", and with two limits: %d", (int)ngw_gauge_read(&gauge, 10, 100, &value));
  printf(", of %d ms\n", (int)value);

  a = ngw_act(&arm, NGW_ASK_FORMAT, 4, 1, 0, bytes, &size);
  bytes[0] |= 0x0f; /* a 1 where zero is due */
  ngw_recover(&arm, bytes, size, &kept, &at, ending);
  printf("a journal with a damaged byte: %d kept, ending %d\n", (int)kept, (int)ending[0]);
  a = ngw_act(&arm, NGW_ASK_FORMAT, 4, 1, 0, bytes, &size);
  bytes[9] = 9; /* a store for 9 records, into memory for 4 */
  ngw_recover(&arm, bytes, size, &kept, &at, ending);
  printf("a journal of a larger store: %d kept, ending %d, number %d\n", (int)kept, (int)ending[0], (int)ending[1]);
  say("a poll after that", ngw_poll(&arm, 0));

  ngawdrelo_inspect_line(state, keys, 1024, deadlines, 1024, (const uint8_t *)"i 5 70", 6);
  printf("a log's line: %d", (int)state[0]);
  ngawdrelo_inspect_line(state, keys, 1024, deadlines, 1024, (const uint8_t *)"p 70 -", 6);
  printf(", and one that cannot be right: %d, line %d\n", (int)state[0], (int)state[1]);
  return 0;
}
