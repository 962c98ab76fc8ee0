"""Runs programs with one allocation refused. It is a module of refuse and of soak: with library() as it, a program that
runs with refused(it, number) in its environment is refused its allocation of that number.

A built program asks the C library for its memory. A small library, made by the C compiler 'cc', stands before that one,
and refuses the call of the number."""
import contextlib
import pathlib
import resource
import subprocess
import tempfile

MARK = b"an allocation is refused\n"  # on standard error

LIBRARY = r"""
#include <errno.h>
#include <stdlib.h>
#include <unistd.h>

void *__libc_malloc(size_t), *__libc_calloc(size_t, size_t), *__libc_realloc(void *, size_t);

static long left;

__attribute__((constructor)) static void begin(void) {
    const char *which = getenv("REFUSED_ALLOCATION");
    left = which ? atol(which) : 0;
}

/* Threads may ask at the same time. */
static int refused(void) {
    static const char mark[] = "an allocation is refused\n";
    if (__atomic_load_n(&left, __ATOMIC_RELAXED) <= 0 || __atomic_sub_fetch(&left, 1, __ATOMIC_RELAXED) != 0) return 0;
    if (write(2, mark, sizeof mark - 1) < 0) abort();
    errno = ENOMEM;
    return 1;
}

void *malloc(size_t size) { return refused() ? NULL : __libc_malloc(size); }
void *calloc(size_t count, size_t size) { return refused() ? NULL : __libc_calloc(count, size); }
void *realloc(void *old, size_t size) { return refused() ? NULL : __libc_realloc(old, size); }
"""


@contextlib.contextmanager
def library():
    """The file of the library."""
    resource.setrlimit(resource.RLIMIT_CORE, (0, 0))
    with tempfile.TemporaryDirectory() as folder:
        source = pathlib.Path(folder, "refusing.c")
        source.write_text(LIBRARY)
        made = source.with_suffix(".so")
        subprocess.run(["cc", "-O1", "-shared", "-fPIC", "-o", made, source], check=True)
        yield made


def refused(library, number):
    """The environment of a program whose allocation of this number is refused, or none if it is 0."""
    return {"LD_PRELOAD": str(library), "REFUSED_ALLOCATION": str(number)}
