"""Runs a program and stops it at one of its calls that change a file, or lets that call fail. It is a module of stop-argus
and of soak: with stopper() as it, it.run(words, folder, number, way).

A built program asks the C library to change its files. A small library, made by the C compiler 'cc', stands before that
one. It counts the calls that change a file of one folder. At the call of a number it ends the process, or says that the
call failed."""
import contextlib
import os
import pathlib
import subprocess
import sys
import tempfile
from typing import NamedTuple

sys.dont_write_bytecode = True
import soaking

STOPPED = 86  # the status of a process that was stopped
SECONDS = 60  # of one run, if soak does not give it more

# What a stop leaves of the call at which it comes, and of those since the last sync of their file: nothing of the call;
# its first half; nothing of any of them.
WAYS = ("before", "half", "unsynced")
# In place of a stop the call may fail so, once.
ERRORS = ("EIO", "ENOSPC")

LIBRARY = r"""
#define _GNU_SOURCE
#include <dlfcn.h>
#include <errno.h>
#include <stdio.h>
#include <stdlib.h>
#include <string.h>
#include <sys/stat.h>
#include <unistd.h>

#define STOPPED 86
#define NAMED 4096

/* What a call changed of a file: its bytes from a place on, and its length. */
struct change {
    struct change *before;
    int file;
    ino_t node;
    off_t place, length;
    size_t size;
    char bytes[];
};

static struct change *last;
static const char *folder, *way;
static long left;
static int told = -1;

static ssize_t (*real_write)(int, const void *, size_t, off_t);
static int (*real_cut)(int, off_t);
static int (*real_sync)(int);

__attribute__((constructor)) static void begin(void) {
    folder = getenv("STOPPED_FOLDER");
    way = getenv("STOPPED_WAY");
    const char *number = getenv("STOPPED_CALL"), *calls = getenv("STOPPED_CALLS");
    left = number ? atol(number) : 0;
    told = calls ? atoi(calls) : -1;
    real_write = dlsym(RTLD_NEXT, "pwrite");
    real_cut = dlsym(RTLD_NEXT, "ftruncate");
    real_sync = dlsym(RTLD_NEXT, "fsync");
}

/* The name in the folder of an open file, or nothing where it stands elsewhere. */
static const char *name_of(int file) {
    static char path[NAMED];
    char link[64];
    snprintf(link, sizeof link, "/proc/self/fd/%d", file);
    ssize_t size = readlink(link, path, sizeof path - 1);
    if (!folder || size < 0) return NULL;
    path[size] = 0;
    size_t length = strlen(folder);
    return strncmp(path, folder, length) || path[length] != '/' ? NULL : path + length + 1;
}

static void keep(int file, off_t place, size_t size) {
    struct stat found;
    if (fstat(file, &found)) abort();
    off_t there = found.st_size > place ? found.st_size - place : 0;
    size_t kept = (off_t)size < there ? size : (size_t)there;
    struct change *made = malloc(sizeof *made + kept);
    if (!made) abort();
    *made = (struct change){last, file, found.st_ino, place, found.st_size, kept};
    if (pread(file, made->bytes, kept, place) != (ssize_t)kept) abort();
    last = made;
}

/* The changes of the file stay. */
static void settle(int file) {
    struct stat found;
    if (fstat(file, &found)) abort();
    for (struct change **at = &last; *at;) {
        struct change *made = *at;
        if (made->node == found.st_ino) {
            *at = made->before;
            free(made);
        } else {
            at = &made->before;
        }
    }
}

static void undo(void) {
    for (; last; last = last->before) {
        if (real_write(last->file, last->bytes, last->size, last->place) != (ssize_t)last->size) abort();
        if (real_cut(last->file, last->length)) abort();
    }
}

/* Counts a call on a file of the folder. Where it is the one, it ends the process, or gives -1 if the call is to fail. */
static int counts(const char *call, int file, off_t place, const void *bytes, size_t size) {
    const char *name = name_of(file);
    if (!name) return 0;
    dprintf(told, "%s %s %lld %zu\n", call, name, (long long)place, size);
    if (left == 0 || --left != 0) return 1;
    if (!strcmp(way, "EIO") || !strcmp(way, "ENOSPC")) {
        errno = !strcmp(way, "EIO") ? EIO : ENOSPC;
        return -1;
    }
    if (!strcmp(way, "half") && bytes && real_write(file, bytes, size / 2, place) < 0) abort();
    if (!strcmp(way, "unsynced")) undo();
    _exit(STOPPED);
}

ssize_t pwrite(int file, const void *bytes, size_t size, off_t place) {
    int counted = counts("write", file, place, bytes, size);
    if (counted < 0) return -1;
    if (counted) keep(file, place, size);
    return real_write(file, bytes, size, place);
}

int ftruncate(int file, off_t length) {
    int counted = counts("cut", file, length, NULL, 0);
    if (counted < 0) return -1;
    if (counted) {
        struct stat found;
        if (fstat(file, &found)) abort();
        keep(file, length, found.st_size > length ? found.st_size - length : 0);
    }
    return real_cut(file, length);
}

int fsync(int file) {
    int counted = counts("sync", file, 0, NULL, 0);
    if (counted < 0) return -1;
    int failed = real_sync(file);
    if (counted && !failed) settle(file);
    return failed;
}

int fdatasync(int file) { return fsync(file); }
ssize_t pwrite64(int file, const void *bytes, size_t size, off_t place) { return pwrite(file, bytes, size, place); }
int ftruncate64(int file, off_t length) { return ftruncate(file, length); }
"""


class Run(NamedTuple):
    status: int
    printed: str
    said: str  # on standard error
    calls: list  # that change a file of the folder, a line each

    @property
    def is_stopped(self):
        return self.status == STOPPED


class Stopper:
    def __init__(self, library):
        self.library = library

    def run(self, words, folder, number=0, way=WAYS[0], given=""):
        """Runs the words, and stops at the call of this number that changes a file of the folder; at none where it is 0."""
        with tempfile.TemporaryFile() as calls:
            file = calls.fileno()
            env = {
                "LD_PRELOAD": str(self.library),
                "STOPPED_FOLDER": os.path.realpath(folder),
                "STOPPED_CALL": str(number),
                "STOPPED_WAY": way,
                "STOPPED_CALLS": str(file),
            }
            how = {"capture_output": True, "text": True, "timeout": max(SECONDS, soaking.seconds()), "pass_fds": [file]}
            done = subprocess.run(words, input=given, env=os.environ | env, **how)
            calls.seek(0)
            return Run(done.returncode, done.stdout, done.stderr, calls.read().decode().splitlines())


@contextlib.contextmanager
def stopper():
    with tempfile.TemporaryDirectory() as folder:
        source = pathlib.Path(folder, "stopping.c")
        source.write_text(LIBRARY)
        library = source.with_suffix(".so")
        subprocess.run(["cc", "-O1", "-shared", "-fPIC", "-o", library, source, "-ldl"], check=True)
        yield Stopper(library)
