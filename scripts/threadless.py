"""The section of soak in which some threads cannot be made. A program makes no thread from a number on, if
without(made, number) is in its environment. There `made` is the file that library() gives.

A built program asks the C library for its threads. A small library, made by the C compiler 'cc', stands before that one."""
import contextlib
import itertools
import pathlib
import random
import subprocess
import tempfile

import soaking
from examples import script_folders
from threaded_scripts import TIME, WAITING, serial_outputs

PATIENCE = 4  # if clients are watched, they have a fourth of the seconds that one run may take
MOST = 12  # threads that can be made

LIBRARY = r"""
#define _GNU_SOURCE
#include <dlfcn.h>
#include <errno.h>
#include <pthread.h>
#include <stdlib.h>

int pthread_create(pthread_t *made, const pthread_attr_t *how, void *(*call)(void *), void *given) {
    static long count;
    int (*real)(pthread_t *, const pthread_attr_t *, void *(*)(void *), void *) = dlsym(RTLD_NEXT, "pthread_create");
    const char *first = getenv("REFUSED_THREAD");
    if (first && __atomic_add_fetch(&count, 1, __ATOMIC_RELAXED) >= atol(first)) return EAGAIN;
    return real(made, how, call, given);
}
"""


@contextlib.contextmanager
def library():
    """The file of the library."""
    with tempfile.TemporaryDirectory() as folder:
        source = pathlib.Path(folder, "threadless.c")
        source.write_text(LIBRARY)
        made = source.with_suffix(".so")
        subprocess.run(["cc", "-O1", "-shared", "-fPIC", "-o", made, source, "-ldl"], check=True)
        yield made


def without(library, number):
    return {"LD_PRELOAD": str(library), "REFUSED_THREAD": str(number)}


def few_threads(program, library, folder, number, options):
    """What is wrong in a run of an example that makes no thread from this number on, or nothing. The time is watched
    only if the first of the threads could be made: the clients start from that one."""
    outputs = serial_outputs(program, folder)
    came = soaking.run(program, "run", *options, folder / "script.json", env=without(library, number))
    is_watched = options and number > 1
    if came == TIME and is_watched and folder.name in WAITING:
        return None
    is_right = not came.status and not came.fault and came.written in outputs
    return None if is_right else f"{came}; wanted one of {len(outputs)} outputs, such as {min(outputs)[-200:]!r}"


def threadless(given):
    chosen = random.Random(given.seed)
    folders = [folder for folder in script_folders() if (folder / "ran").exists()]
    with library() as made:
        for trial in itertools.count(1):
            folder, number = chosen.choice(folders), chosen.randint(1, MOST)
            is_watched = chosen.random() < 0.5 or folder.name in WAITING
            options = ["--seconds", str(max(1, soaking.seconds() // PATIENCE))] if is_watched else []
            of = f"{trial}: {folder.name} {' '.join(options)}".rstrip()
            yield f"{of}, no thread from number {number} on", few_threads, given.program, made, folder, number, options
