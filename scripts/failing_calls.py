"""Runs programs in which one call that opens, reads or writes fails, or each call moves a few bytes at most. It is a module
of refused_cases and of soak: with library() as it, a program that runs with refused(it, number) in its environment fails
its call of that number.

A built program asks the C library to read and write. A small library, made by the C compiler 'cc', stands before that one.
It counts the calls on files of examples and in folders for trials, and on pipes that are standard input or output."""
import contextlib
import pathlib
import subprocess
import tempfile

from examples import EXAMPLES

MARK = b"a call fails\n"  # on standard error
WORDS = ("fault input\n", "fault output\n", "fault store\n")

LIBRARY = r"""
#define _GNU_SOURCE
#include <dlfcn.h>
#include <errno.h>
#include <fcntl.h>
#include <stdarg.h>
#include <stdio.h>
#include <stdlib.h>
#include <string.h>
#include <unistd.h>

#define NAMED 4096

static long left;
static size_t most;
static const char *examples, *trials;
static ssize_t (*real_read)(int, void *, size_t), (*real_write)(int, const void *, size_t);
static ssize_t (*real_pread)(int, void *, size_t, off_t), (*real_pwrite)(int, const void *, size_t, off_t);
static int (*real_open)(const char *, int, ...);

static void *real(const char *name) { return dlsym(RTLD_NEXT, name); }

__attribute__((constructor)) static void begin(void) {
    const char *number = getenv("FAILED_CALL"), *bytes = getenv("FAILED_BYTES");
    left = number ? atol(number) : 0;
    most = bytes ? (size_t)atol(bytes) : 0;
    examples = getenv("FAILED_EXAMPLES");
    trials = getenv("FAILED_TRIALS");
    real_read = real("read");
    real_write = real("write");
    real_pread = real("pread");
    real_pwrite = real("pwrite");
    real_open = real("open");
}

static int is_within(const char *path, const char *folder) { return folder && !strncmp(path, folder, strlen(folder)); }
static int is_named(const char *path) { return is_within(path, examples) || is_within(path, trials); }

static int is_counted(int file) {
    char link[64], path[NAMED];
    if (file == 2) return 0;
    snprintf(link, sizeof link, "/proc/self/fd/%d", file);
    ssize_t size = readlink(link, path, sizeof path - 1);
    if (size < 0) return 0;
    path[size] = 0;
    return is_named(path) || (file < 2 && !strncmp(path, "pipe:", 5));
}

/* Threads may call at the same time. */
static int fails(void) {
    static const char mark[] = "a call fails\n";
    if (__atomic_load_n(&left, __ATOMIC_RELAXED) <= 0 || __atomic_sub_fetch(&left, 1, __ATOMIC_RELAXED) != 0) return 0;
    if (real_write(2, mark, sizeof mark - 1) < 0) abort();
    errno = EIO;
    return 1;
}

static int is_cut(int file) { return is_counted(file) && fails(); }
static size_t part(int file, size_t size) { return most && size > most && is_counted(file) ? most : size; }

ssize_t read(int file, void *bytes, size_t size) { return is_cut(file) ? -1 : real_read(file, bytes, part(file, size)); }

ssize_t write(int file, const void *bytes, size_t size) {
    return is_cut(file) ? -1 : real_write(file, bytes, part(file, size));
}

ssize_t pread(int file, void *bytes, size_t size, off_t place) {
    return is_cut(file) ? -1 : real_pread(file, bytes, part(file, size), place);
}

ssize_t pwrite(int file, const void *bytes, size_t size, off_t place) {
    return is_cut(file) ? -1 : real_pwrite(file, bytes, part(file, size), place);
}

int open(const char *path, int flags, ...) {
    va_list rest;
    va_start(rest, flags);
    mode_t mode = flags & (O_CREAT | O_TMPFILE) ? va_arg(rest, mode_t) : 0;
    va_end(rest);
    return is_named(path) && fails() ? -1 : real_open(path, flags, mode);
}

ssize_t pread64(int file, void *bytes, size_t size, off_t place) { return pread(file, bytes, size, place); }
ssize_t pwrite64(int file, const void *bytes, size_t size, off_t place) { return pwrite(file, bytes, size, place); }
int open64(const char *path, int flags, ...) {
    va_list rest;
    va_start(rest, flags);
    mode_t mode = flags & (O_CREAT | O_TMPFILE) ? va_arg(rest, mode_t) : 0;
    va_end(rest);
    return open(path, flags, mode);
}
"""


@contextlib.contextmanager
def library():
    """The file of the library."""
    with tempfile.TemporaryDirectory() as folder:
        source = pathlib.Path(folder, "failing.c")
        source.write_text(LIBRARY)
        made = source.with_suffix(".so")
        subprocess.run(["cc", "-O1", "-shared", "-fPIC", "-o", made, source, "-ldl"], check=True)
        yield made


def named(library):
    """The environment of a program whose calls are counted."""
    folders = {"FAILED_EXAMPLES": str(EXAMPLES), "FAILED_TRIALS": str(pathlib.Path(tempfile.gettempdir()).resolve())}
    return {"LD_PRELOAD": str(library)} | folders


def refused(library, number):
    """The environment of a program whose call of this number fails, or none if it is 0."""
    return named(library) | {"FAILED_CALL": str(number)}


def in_parts(library, most):
    """The environment of a program whose calls move so many bytes at most."""
    return named(library) | {"FAILED_BYTES": str(most)}
