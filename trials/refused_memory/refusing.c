/* A C library for a program that reads lines: allocations are counted from each read on, and some of them refused.

   The file that REFUSALS names holds five numbers: the first and the last allocation that are refused behind the next read, or
   from the start on (none where the last is 0); how many there were before the last read that has begun, from the read before it on,
   or from the start, and how many of them were refused; and how many reads have begun. */
#define _GNU_SOURCE
#include <fcntl.h>
#include <stdlib.h>
#include <sys/mman.h>
#include <sys/syscall.h>
#include <unistd.h>
extern void *__libc_malloc(size_t);
extern void *__libc_realloc(void *, size_t);
extern void *__libc_calloc(size_t, size_t);
extern void *__libc_memalign(size_t, size_t);
static volatile struct { long first, last, counted, refused, reads; } *shared;
static long first, last, counted, refused;

static int refuse(void) {
  ++counted;
  int is_refused = first <= counted && counted <= last;
  refused += is_refused;
  return is_refused;
}

static void before_read(void) {
  shared->counted = counted;
  shared->refused = refused;
  last = 0;
  __sync_synchronize();
  ++shared->reads;
}

static void behind_read(void) {
  first = shared->first;
  last = shared->last;
  counted = refused = 0;
}

__attribute__((constructor)) static void start(void) {
  int file = open(getenv("REFUSALS"), O_RDWR);
  shared = mmap(NULL, sizeof *shared, PROT_READ | PROT_WRITE, MAP_SHARED, file, 0);
  close(file);
  behind_read();
}

ssize_t read(int file, void *to, size_t n) {
  if (file == 0) before_read();
  ssize_t got = syscall(SYS_read, file, to, n);
  if (file == 0) behind_read();
  return got;
}

void *malloc(size_t n) { return refuse() ? NULL : __libc_malloc(n); }
void *realloc(void *p, size_t n) { return refuse() ? NULL : __libc_realloc(p, n); }
void *calloc(size_t k, size_t n) { return refuse() ? NULL : __libc_calloc(k, n); }
void *aligned_alloc(size_t a, size_t n) { return refuse() ? NULL : __libc_memalign(a, n); }
void *memalign(size_t a, size_t n) { return aligned_alloc(a, n); }
int posix_memalign(void **p, size_t a, size_t n) { return (*p = aligned_alloc(a, n)) ? 0 : 12; }
