#!/usr/bin/env python3
"""`run_embedded.py PROGRAM [LIBRARY [TRANSFERS]]`: what a transfer costs by each way into a world in memory, where PROGRAM is `transfer_speed`: by
steps of a world, by transactions of a service, and through the static library argus_c by calls and by lines, with and without reading each answer.
LIBRARY is that of crates/argus_c if none is said.

All ways make the same fourteen steps. Times are CPU times of TRANSFERS transfers (20,000): the fastest of five runs in turns, less the fastest run of
none. Instructions are counted by valgrind where it is installed, as the difference of a longer and a shorter run, and do not depend on the machine's
speed. Needs a C compiler."""
import os
import pathlib
import re
import resource
import shutil
import subprocess
import sys
import tempfile

HERE = pathlib.Path(__file__).resolve().parent
LIBRARY = HERE.parent / "crates/argus_c/out/libargus_c.a"
TURNS = 5
# How many transfers the runs make that are counted.
SHORTER, LONGER = 500, 2_000


def kit():
    """The folder of the toolchain, which has what the library calls."""
    return pathlib.Path(subprocess.run(["rt", "doc"], check=True, capture_output=True, text=True).stdout.strip()).parent


def build(library, made):
    flags = ["-std=c99", "-O2", "-Wall", "-Wextra", "-Werror"]
    subprocess.run(["cc", *flags, "-o", made, HERE / "embedded.c", library, kit() / "c/liblibc_c.a"], check=True)


def run(words, count):
    """Makes so many transfers, and gives what is written on the other stream."""
    done = subprocess.run([*words, str(count)], capture_output=True, text=True, check=True)
    if done.stdout != f"{count}\n":
        sys.exit(f"{words[-1]}: {count} transfers were asked for, and it says {done.stdout!r}")
    return done.stderr


def seconds(words, count):
    used = resource.getrusage(resource.RUSAGE_CHILDREN)
    run(words, count)
    now = resource.getrusage(resource.RUSAGE_CHILDREN)
    return now.ru_utime + now.ru_stime - used.ru_utime - used.ru_stime


def microseconds(ways, count):
    """Of a transfer by each way."""
    taken = [[(seconds(words, 0), seconds(words, count)) for _name, words in ways] for _ in range(TURNS)]
    least = [[min(turn[way][of] for turn in taken) for of in (0, 1)] for way in range(len(ways))]
    return [(more - less) / count * 1e6 for less, more in least]


def instructions(words, count):
    counted = run(["valgrind", "--tool=cachegrind", "--cache-sim=no", "--cachegrind-out-file=/dev/null", *words], count)
    return int(re.search(r"I\s+refs:\s+([\d,]+)", counted)[1].replace(",", ""))


def counted(ways):
    """Of a transfer by each way."""
    return [(instructions(words, LONGER) - instructions(words, SHORTER)) / (LONGER - SHORTER) for _name, words in ways]


def cells(figures, way, shown):
    """A figure, and how many times it is that of the first way."""
    return [shown.format(figures[way]), f"{figures[way] / figures[0]:.2f}"] if figures else ["", ""]


def main():
    program = pathlib.Path(sys.argv[1]).resolve()
    library = pathlib.Path(sys.argv[2]).resolve() if len(sys.argv) > 2 else LIBRARY
    transfers = int(sys.argv[3]) if len(sys.argv) > 3 else 20_000
    print(f"load: {', '.join(f'{load:.1f}' for load in os.getloadavg())} on {os.cpu_count()} processors")
    with tempfile.TemporaryDirectory() as scratch:
        embedded = pathlib.Path(scratch, "embedded")
        build(library, embedded)
        ways = [
            ("by `step`", [program, "step"]),
            ("by `transact`", [program, "transact"]),
            ("C, typed calls", [embedded, "calls"]),
            ("C, lines", [embedded, "lines"]),
            ("C, typed calls, each answer read", [embedded, "calls-read"]),
            ("C, lines, each answer read", [embedded, "lines-read"]),
        ]
        took, made = microseconds(ways, transfers), counted(ways) if shutil.which("valgrind") else []
    print("| a transfer | microseconds | times `step` | instructions | times `step` |\n|---|---|---|---|---|")
    for way, (name, _words) in enumerate(ways):
        print("| " + " | ".join([name, *cells(took, way, "{:.2f}"), *cells(made, way, "{:,.0f}")]) + " |")


main()
