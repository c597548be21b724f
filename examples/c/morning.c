/* README's morning, line by line: what is asked stands beside, what is answered is written as there. */
#include "bench.h"
#include <stdio.h>

NGAWDRELO_STORE(arm, 4); /* memory for four records; nothing else is needed */

static void say(ngw_answer a) {
  char line[120];
  fwrite(line, 1, (size_t)(bench_text(line, a) - line), stdout);
}

int main(void) {
  uint64_t second;
  ngw_answer set;
  say(ngw_format(&arm, 4, 1));         /* f 4 1     a store of four records, whose first turn is 1 */
  say(ngw_insert(&arm, 7, 70, 0));     /* i 7 70 0  value 7 at 70, once */
  set = ngw_insert(&arm, 8, 70, 40);   /* i 8 70 40 value 8 at 70, and then every 40 */
  say(set);
  if (set.kind == NGW_NO) return 1;    /* without its timer the arm does not start */
  second = ngw_key(set);
  say(ngw_next_wake(&arm));            /* w         look again from 64 on */
  say(ngw_poll(&arm, 70));             /* p 70      the first is due .. */
  say(ngw_poll(&arm, 70));             /* p 70      .. and the second, which is set again */
  say(ngw_poll(&arm, 69));             /* p 69      the store's time stood at 64 */
  say(ngw_poll(&arm, 68));             /* p 68      back in time */
  say(ngw_poll(&arm, 110));            /* p 110     the second again */
  say(ngw_remove(&arm, second));       /* r 65537   it is cancelled */
  return 0;
}
