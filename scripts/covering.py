"""Which functions of a built program were entered in some runs: a module of soak. With covered(program) as it, each process
that begins from here notes the functions that it enters, and it.table() says how many there were of each crate.

A small library, made by the C compiler 'cc', puts a trap at each function that no process has entered yet. The first call
takes its trap away. Functions that the compiler has put into their callers are not seen. Runs for which another library
stands before the C library are not counted."""
import collections
import contextlib
import os
import pathlib
import re
import shutil
import struct
import subprocess
import tempfile

ROOT = pathlib.Path(__file__).resolve().parent.parent
FUNCTION = re.compile(r"([0-9a-f]+) [tT] (\w+)::(.*)")
GLUE = "Destruct++"  # functions that let values go

LIBRARY = r"""
#define _GNU_SOURCE
#include <fcntl.h>
#include <link.h>
#include <signal.h>
#include <stdint.h>
#include <stdlib.h>
#include <string.h>
#include <sys/mman.h>
#include <sys/stat.h>
#include <ucontext.h>
#include <unistd.h>

#define TRAP 0xCC
#define PAGE 4096

static uint64_t *places;
static unsigned char *entered, *kept;
static size_t count;
static uintptr_t base;

static int find_base(struct dl_phdr_info *info, size_t size, void *data) {
    base = info->dlpi_addr; /* the program comes first */
    return 1;
}

static void *mapped(const char *name, int flags, int rights) {
    int file = name ? open(name, flags) : -1;
    struct stat found;
    if (file < 0 || fstat(file, &found) || !found.st_size) return NULL;
    void *at = mmap(NULL, found.st_size, rights, MAP_SHARED, file, 0);
    close(file);
    if (!places) count = found.st_size / sizeof *places;
    return at == MAP_FAILED ? NULL : at;
}

static void meet(int number, siginfo_t *info, void *context) {
    greg_t *at = &((ucontext_t *)context)->uc_mcontext.gregs[REG_RIP];
    uintptr_t place = (uintptr_t)*at - 1 - base;
    size_t low = 0, high = count;
    while (low < high) {
        size_t middle = (low + high) / 2;
        if (places[middle] < place) low = middle + 1; else high = middle;
    }
    if (low == count || places[low] != place) _exit(99);
    *(volatile unsigned char *)(base + place) = kept[low];
    entered[low] = 1;
    *at -= 1;
}

static int is_program(void) {
    char path[PAGE] = "";
    const char *program = getenv("COVERED_PROGRAM");
    return program && readlink("/proc/self/exe", path, sizeof path - 1) > 0 && !strcmp(path, program);
}

__attribute__((constructor)) static void begin(void) {
    if (!is_program()) return;
    places = mapped(getenv("COVERED_PLACES"), O_RDONLY, PROT_READ);
    entered = mapped(getenv("COVERED_ENTERED"), O_RDWR, PROT_READ | PROT_WRITE);
    if (!places || !entered) return;
    dl_iterate_phdr(find_base, NULL);
    uintptr_t from = (base + places[0]) & ~(uintptr_t)(PAGE - 1), to = base + places[count - 1] + 1;
    kept = mmap(NULL, count, PROT_READ | PROT_WRITE, MAP_PRIVATE | MAP_ANONYMOUS, -1, 0);
    if (kept == MAP_FAILED || mprotect((void *)from, to - from, PROT_READ | PROT_WRITE | PROT_EXEC)) return;
    struct sigaction action = {.sa_sigaction = meet, .sa_flags = SA_SIGINFO | SA_NODEFER | SA_ONSTACK};
    if (sigaction(SIGTRAP, &action, NULL)) return;
    for (size_t number = 0; number < count; number++) {
        if (entered[number]) continue;
        unsigned char *at = (unsigned char *)(base + places[number]);
        kept[number] = *at;
        *at = TRAP;
    }
}
"""


def crates():
    lines = (line for line in (ROOT / "crates.txt").read_text().splitlines() if ":" in line and not line.startswith("#"))
    return {line.partition(":")[0].split()[0] for line in lines}


def functions_of(program):
    """The places of the functions of the repository's crates in the program, and their names."""
    own, found = crates(), {}
    if not shutil.which("nm"):
        return found
    for line in subprocess.run(["nm", program], capture_output=True, text=True).stdout.splitlines():
        match = FUNCTION.fullmatch(line)
        if match and match[2] in own and GLUE not in match[3]:
            found[int(match[1], 16)] = f"{match[2]}::{match[3]}"
    return dict(sorted(found.items()))


class Covered:
    def __init__(self, functions, entered):
        self.functions, self.file = functions, entered

    def marks(self):
        return zip(self.functions.values(), self.file.read_bytes())

    def table(self):
        """A line for each crate, and one for all."""
        entered, total = collections.Counter(), collections.Counter()
        for name, mark in self.marks():
            for crate in name.split("::")[0], "all":
                entered[crate] += mark
                total[crate] += 1
        return [f"cover: {crate}: {entered[crate]} of {total[crate]} functions entered" for crate in sorted(total)]

    def left(self):
        """The functions that were not entered."""
        return [name for name, mark in self.marks() if not mark]


@contextlib.contextmanager
def covered(program):
    """None where the program has no symbols."""
    functions = functions_of(program)
    if not functions:
        yield None
        return
    with tempfile.TemporaryDirectory() as folder:
        source, places, entered = (pathlib.Path(folder, name) for name in ("covering.c", "places", "entered"))
        source.write_text(LIBRARY)
        places.write_bytes(struct.pack(f"<{len(functions)}Q", *functions))
        entered.write_bytes(bytes(len(functions)))
        os.chmod(folder, 0o755)  # other users run the program too
        os.chmod(entered, 0o666)
        made = source.with_suffix(".so")
        subprocess.run(["cc", "-O1", "-shared", "-fPIC", "-o", made, source], check=True)
        env = {"LD_PRELOAD": made, "COVERED_PROGRAM": pathlib.Path(program).resolve(), "COVERED_PLACES": places}
        env = {name: str(file) for name, file in {**env, "COVERED_ENTERED": entered}.items()}
        os.environ |= env
        try:
            yield Covered(functions, entered)
        finally:
            for name in env:
                del os.environ[name]
