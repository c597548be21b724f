// The C prototype's judge, and its calls that judge first. As in calls.c a call that is refused is passed over.
#include <stdlib.h>
#define abort() ((void)0)
#define JUDGE
#define main prototype_judged_main
#include "byval.c"

void c_judged_format(u64 n) {
  format();
  S.n = n;
}

u64 c_judged(const u64 *script, size_t commands) { return run(script, commands); }

bool c_judge(void) { return judge(&S, &H, deadline, value, turn, nxt, prv, mark); }
