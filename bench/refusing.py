"""Runs programs with a C library whose Nth allocation is refused."""
import os
import pathlib
import re
import subprocess

# glibc's allocations, of which one is refused, and how many there were
REFUSING = r"""
#include <stddef.h>
#include <stdlib.h>
#include <stdio.h>
extern void *__libc_malloc(size_t);
extern void *__libc_realloc(void *, size_t);
extern void *__libc_calloc(size_t, size_t);
extern void *__libc_memalign(size_t, size_t);
static long count, refused = -1;
static int refuse(void) {
  if (refused < 0) refused = atol(getenv("REFUSED"));
  return ++count == refused;
}
void *malloc(size_t n) { return refuse() ? NULL : __libc_malloc(n); }
void *realloc(void *p, size_t n) { return refuse() ? NULL : __libc_realloc(p, n); }
void *calloc(size_t k, size_t n) { return refuse() ? NULL : __libc_calloc(k, n); }
void *aligned_alloc(size_t a, size_t n) { return refuse() ? NULL : __libc_memalign(a, n); }
void *memalign(size_t a, size_t n) { return aligned_alloc(a, n); }
int posix_memalign(void **p, size_t a, size_t n) { return (*p = aligned_alloc(a, n)) ? 0 : 12; }
__attribute__((destructor)) static void tell(void) { fprintf(stderr, "allocations: %ld\n", count); }
"""


def built(room):
    """Builds the library in a folder. It needs `cc`."""
    library = pathlib.Path(room) / "refusing.so"
    build = ["cc", "-shared", "-fPIC", "-O1", "-x", "c", "-o", library, "-"]
    subprocess.run(build, input=REFUSING, text=True, check=True)
    return library


def run(words, library, n, given=b""):
    """A run whose nth allocation is refused, none for 0, without what the library says, and how many allocations there were."""
    how = {**os.environ, "LD_PRELOAD": str(library), "REFUSED": str(n)}
    done = subprocess.run(words, env=how, input=given, capture_output=True, timeout=60)
    told = re.search(rb"allocations: (\d+)\n", done.stderr)
    done.stderr = done.stderr.replace(told[0] if told else b"", b"")
    return done, int(told[1]) if told else 0
