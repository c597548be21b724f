/* What bench.c needs where there is no C library: a start, read, write and _exit, and what compilers call by themselves. For x86-64, aarch64,
   ARM's Thumb and riscv32 under Linux, or an emulator of its programs; with -DBOARD for a Cortex-M with nothing on it, which reads and writes
   through whoever debugs it (semihosting). */
#ifndef BARE_H
#define BARE_H
#include <stddef.h>

#ifdef BOARD
static long bare_call(long number, const void *words) {
  register long r0 __asm__("r0") = number;
  register const void *r1 __asm__("r1") = words;
  __asm__ volatile("bkpt 0xab" : "+r"(r0) : "r"(r1) : "memory");
  return r0;
}

static long bare_open(long mode) { /* the console, to be read or to be written to */
  long words[3] = {(long)":tt", 0, 3};
  words[1] = mode;
  return bare_call(1, words);
}

static inline long read(int file, void *to, unsigned long n) {
  static long console = -1;
  long words[3];
  (void)file;
  if (console < 0) console = bare_open(0);
  words[0] = console, words[1] = (long)to, words[2] = (long)n;
  return (long)n - bare_call(6, words); /* it tells what is left */
}

static inline long write(int file, const void *from, unsigned long n) {
  static long console = -1;
  long words[3];
  (void)file;
  if (console < 0) console = bare_open(4);
  words[0] = console, words[1] = (long)from, words[2] = (long)n;
  return (long)n - bare_call(5, words);
}

static inline void _exit(int code) {
  long words[2] = {0x20026, 0};
  words[1] = code;
  for (;;) bare_call(0x20, words);
}
#else
/* A system call with three words. */
static long bare_call(long number, long a, long b, long c) {
#if defined(__x86_64__)
  long r;
  __asm__ volatile("syscall" : "=a"(r) : "a"(number), "D"(a), "S"(b), "d"(c) : "rcx", "r11", "memory");
  return r;
#elif defined(__aarch64__)
  register long x8 __asm__("x8") = number, x0 __asm__("x0") = a, x1 __asm__("x1") = b, x2 __asm__("x2") = c;
  __asm__ volatile("svc 0" : "+r"(x0) : "r"(x8), "r"(x1), "r"(x2) : "memory");
  return x0;
#elif defined(__arm__)
  register long r0 __asm__("r0") = a, r1 __asm__("r1") = b, r2 __asm__("r2") = c, r3 __asm__("r3") = number;
  __asm__ volatile("push {r7}\n\tmov r7, %1\n\tsvc 0\n\tpop {r7}" : "+r"(r0) : "r"(r3), "r"(r1), "r"(r2) : "memory");
  return r0;
#elif defined(__riscv)
  register long a7 __asm__("a7") = number, a0 __asm__("a0") = a, a1 __asm__("a1") = b, a2 __asm__("a2") = c;
  __asm__ volatile("ecall" : "+r"(a0) : "r"(a7), "r"(a1), "r"(a2) : "memory");
  return a0;
#else
#error "no system calls for this processor"
#endif
}

#if defined(__x86_64__)
enum { BARE_READ = 0, BARE_WRITE = 1, BARE_EXIT = 60 };
#elif defined(__arm__)
enum { BARE_READ = 3, BARE_WRITE = 4, BARE_EXIT = 1 };
#else
enum { BARE_READ = 63, BARE_WRITE = 64, BARE_EXIT = 93 };
#endif

static inline long read(int file, void *to, unsigned long n) { return bare_call(BARE_READ, file, (long)to, (long)n); }
static inline long write(int file, const void *from, unsigned long n) { return bare_call(BARE_WRITE, file, (long)from, (long)n); }
static inline void _exit(int code) {
  for (;;) bare_call(BARE_EXIT, code, 0, 0);
}
#endif

/* compiled with -fno-builtin, so that these are not calls of themselves */
void *memcpy(void *to, const void *from, size_t n) {
  char *a = (char *)to;
  const char *b = (const char *)from;
  while (n--) *a++ = *b++;
  return to;
}

void *memmove(void *to, const void *from, size_t n) {
  char *a = (char *)to;
  const char *b = (const char *)from;
  if (a <= b) return memcpy(to, from, n);
  while (n--) a[n] = b[n];
  return to;
}

void *memset(void *to, int byte, size_t n) {
  char *a = (char *)to;
  while (n--) *a++ = (char)byte;
  return to;
}

#if defined(__arm__) /* ARM's names for them */
void __aeabi_memcpy(void *to, const void *from, size_t n) { memcpy(to, from, n); }
void __aeabi_memcpy4(void *to, const void *from, size_t n) { memcpy(to, from, n); }
void __aeabi_memcpy8(void *to, const void *from, size_t n) { memcpy(to, from, n); }
void __aeabi_memmove(void *to, const void *from, size_t n) { memmove(to, from, n); }
void __aeabi_memset(void *to, size_t n, int byte) { memset(to, byte, n); }
void __aeabi_memclr(void *to, size_t n) { memset(to, 0, n); }
void __aeabi_memclr4(void *to, size_t n) { memset(to, 0, n); }
void __aeabi_memclr8(void *to, size_t n) { memset(to, 0, n); }
#endif

int main(void);
void bare_start(void);
void bare_start(void) { _exit(main()); }

#ifdef BOARD
extern char bare_stack[]; /* its end, which the linker is told */
static void bare_fault(void) { _exit(3); }
__attribute__((section(".vectors"), used)) static void (*const bare_vectors[16])(void) = {
    (void (*)(void))bare_stack, bare_start, bare_fault, bare_fault, bare_fault, bare_fault, bare_fault, bare_fault,
    bare_fault, bare_fault, bare_fault, bare_fault, bare_fault, bare_fault, bare_fault, bare_fault};
/* the stack is aligned where a program begins; x86-64 wants a call's address on it */
#elif defined(__x86_64__)
__asm__(".globl _start\n_start:\n\tcall bare_start\n");
#elif defined(__aarch64__)
__asm__(".globl _start\n_start:\n\tbl bare_start\n");
#elif defined(__arm__)
__asm__(".globl _start\n.type _start, %function\n.thumb_func\n_start:\n\tbl bare_start\n");
#else
__asm__(".globl _start\n_start:\n\tcall bare_start\n");
#endif
#endif
