"""Runs the program where one call for memory is refused, by a library that is loaded before it."""

import contextlib
import os
import shutil
import subprocess

from checking import PROGRAM, Skip

# Refuses the call for memory whose number stands in REFUSED, and tells that on the descriptor that stands in TOLD.
REFUSING = """
#define _GNU_SOURCE
#include <errno.h>
#include <stdlib.h>
#include <unistd.h>
extern void *__libc_malloc(size_t), *__libc_calloc(size_t, size_t), *__libc_realloc(void *, size_t);
extern void *__libc_memalign(size_t, size_t);
static long left = -1;
static int refused(void) {
    if (left < 0) { const char *text = getenv("REFUSED"); left = text ? atol(text) : 0; }
    if (left == 0 || --left) return 0;
    errno = ENOMEM;
    return write(atoi(getenv("TOLD")), "r", 1) == 1;
}
void *malloc(size_t n) { return refused() ? NULL : __libc_malloc(n); }
void *calloc(size_t n, size_t m) { return refused() ? NULL : __libc_calloc(n, m); }
void *realloc(void *p, size_t n) { return refused() ? NULL : __libc_realloc(p, n); }
void *aligned_alloc(size_t a, size_t n) { return refused() ? NULL : __libc_memalign(a, n); }
int posix_memalign(void **p, size_t a, size_t n) {
    if (refused()) return ENOMEM;
    *p = __libc_memalign(a, n);
    return *p ? 0 : ENOMEM;
}
"""


def refusing_library(repositories):
    """The path of the library that refuses a call for memory."""
    compiler = shutil.which("cc") or shutil.which("gcc")
    if not compiler:
        raise Skip("no C compiler is here")
    source, library = repositories.path("refusing.c"), repositories.path("refusing.so")
    with open(source, "w", encoding="utf-8") as file:
        file.write(REFUSING)
    made = subprocess.run([compiler, "-shared", "-fPIC", "-O1", "-o", library, source], capture_output=True, check=False)
    if made.returncode:
        raise Skip("the C compiler makes no library that can be loaded")
    return library


@contextlib.contextmanager
def refusing(library, call):
    """What a process is given of which this call for memory is refused, and a list that gets whether one was, once it has ended."""
    told, tell = os.pipe()
    environment, refused = {**os.environ, "LD_PRELOAD": library, "REFUSED": str(call), "TOLD": str(tell)}, []
    try:
        yield {"env": environment, "pass_fds": [tell]}, refused
    finally:
        os.close(tell)
        with os.fdopen(told, "rb") as file:
            refused.append(file.read() != b"")


def refuse(library, call, words, given=b""):
    """Runs the program where this call for memory is refused: its status, its output, its errors and whether one was."""
    with refusing(library, call) as (how, refused):
        ran = subprocess.run([PROGRAM, *words], input=given, capture_output=True, timeout=60, check=False, **how)
    return ran.returncode, ran.stdout, ran.stderr, *refused
