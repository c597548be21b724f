// The C prototype's calls that judge nothing, over arrays of its own. It puts new entries at a list's head, so that equal deadlines come out in
// another order and some keys of a script are dead there: such a call is refused, and counted, and the script goes on.
#include <stdlib.h>
static size_t refused;
#define abort() ((void)refused++)
#define main prototype_main
#include "speed.c"

void c_format(u64 n) {
  w_format(n, 1);
  refused = 0;
}

u64 c_inner(const u64 *script, size_t commands) {
  u64 moves;
  return run(script, commands, &moves);
}

size_t c_refused(void) { return refused; }
