/* An arm with a journal, which outlives its own end: it is killed twice, once inside a patch and once inside a write, and goes on from its
   file. Each call's bytes are on the disk before its answer is used. For a file system; a board writes the same bytes to its flash. */
#ifndef _POSIX_C_SOURCE
#define _POSIX_C_SOURCE 200809L
#endif
#include "ngawdrelo.h"
#include <fcntl.h>
#include <inttypes.h>
#include <signal.h>
#include <stdio.h>
#include <stdlib.h>
#include <sys/types.h>
#include <sys/wait.h>
#include <unistd.h>

#define CUT 7   /* what a timer's value stands for: cut the vacuum, .. */
#define RINSE 9 /* .. rinse the pump */

NGAWDRELO_STORE(arm, 16);

static int file;        /* the journal, .. */
static uint64_t length; /* .. and how far it is written */
static uint64_t patch;  /* whether a patch is open */

static void stop(const char *why) { /* what cannot be written must not be acted on */
  printf("stopped: %s\n", why);
  exit(1);
}

/* Writes the bytes of a step, and waits until they have reached the disk. */
static void keep(const uint8_t *bytes, uint64_t size) {
  if (size == 0) return; /* a call that changes nothing has none */
  if (pwrite(file, bytes, (size_t)size, (off_t)length) != (ssize_t)size || fsync(file)) stop("the journal cannot be written");
  length += size;
}

/* A call through the journal. */
static ngw_answer ask(ngw_command kind, uint64_t a, uint64_t b, uint64_t c) {
  uint8_t bytes[36];
  uint64_t size;
  ngw_answer said = ngw_act(&arm, (uint64_t)kind, a, b, c, bytes, &size);
  keep(bytes, size);
  if (said.kind == NGW_NO) printf("  refused, number %" PRIu64 ": %s\n", ngw_number(said), ngw_text(ngw_number(said)));
  return said;
}

/* The store as the journal has it; the file is cut to what is kept, from where writing goes on. */
static void start(void) {
  static uint8_t bytes[1 << 16];
  uint64_t kept, at, ending[2];
  ssize_t n;
  file = open("arm.journal", O_RDWR | O_CREAT, 0600);
  n = file < 0 ? -1 : read(file, bytes, sizeof bytes);
  if (n < 0 || n == (ssize_t)sizeof bytes) stop("the journal cannot be read");
  ngw_recover(&arm, bytes, (uint64_t)n, &kept, &at, ending);
  printf("started: %d bytes, %" PRIu64 " kept", (int)n, kept);
  if (at > kept) printf(", %" PRIu64 " of a patch that is not closed", at - kept);
  if ((uint64_t)n > at) printf(", %" PRIu64 " of an entry that is not whole", (uint64_t)n - at);
  printf("\n");
  if (ending[0] != NGW_END_CUT) stop("the journal is damaged"); /* docs/ANSWERS.md, "After a power cut" */
  if (ftruncate(file, (off_t)kept) || fsync(file)) stop("the journal cannot be cut");
  length = kept;
  patch = 0;
}

static void die(void) { /* as a power cut: nothing of ours is done any more */
  fflush(stdout);
  kill(getpid(), SIGKILL);
}

static void live(int life) {
  uint8_t bytes[36];
  uint64_t size;
  ngw_answer a;
  start();
  if (life == 1) {
    ask(NGW_ASK_FORMAT, 16, 1, 0);
    a = ask(NGW_ASK_INSERT, CUT, 420000, 0);
    printf("  cut-off set, key %" PRIu64 "\n", ngw_key(a));
    a = ask(NGW_ASK_INSERT, RINSE, 2400000, 2400000);
    printf("  rinse set, key %" PRIu64 "\n", ngw_key(a));
    ngw_open(&patch, bytes, &size); /* all of what follows is kept, or none of it */
    keep(bytes, size);
    a = ask(NGW_ASK_RESET, ngw_key(a), 60000, 0);
    printf("  in a patch: the rinse is moved to 60000\n");
    die(); /* before it is closed */
  }
  if (life == 2) {
    a = ask(NGW_ASK_POLL, 60000, 0, 0);
    printf("  at 60000 %s\n", ngw_handed(a) ? "a timer is due" : "nothing is due: the patch was not kept");
    a = ask(NGW_ASK_POLL, 420000, 0, 0);
    printf("  at 420000 due: %" PRIu64 ", key %" PRIu64 "\n", ngw_value(a), ngw_key(a));
    ngw_act(&arm, NGW_ASK_CLEAR, 0, 0, 0, bytes, &size); /* not answered yet: its bytes are not written, .. */
    size = size / 2;
    keep(bytes, size); /* .. only half of them */
    die();
  }
  ask(NGW_ASK_REMOVE, 65536, 0, 0); /* the cut-off has come out: its key stays dead over both ends */
  a = ask(NGW_ASK_REMOVE, 65537, 0, 0);
  printf("  rinse cancelled, it was set for %" PRIu64 "\n", ngw_deadline(a));
  fflush(stdout);
  _exit(0);
}

int main(void) {
  int life, status = 1;
  unlink("arm.journal");
  for (life = 1; life <= 3; life++) {
    pid_t child = fork();
    if (child == 0) live(life);
    if (child < 0 || waitpid(child, &status, 0) != child) return 1;
    if (WIFSIGNALED(status)) {
      printf("killed\n");
      fflush(stdout);
    }
  }
  return status;
}
