#!/usr/bin/env python3
"""`run_gather.py PROGRAM [STEPS [ROUNDS]]`: what gathering the trace of about STEPS steps (250,000) costs beside making them.

PROGRAM makes the steps of a workload, and their events are written as a trace. In each of ROUNDS rounds (5) PROGRAM gathers
the trace and makes the steps. Prints the least CPU seconds of each, their ratio, and the peak memory beside the file's size."""
import os
import pathlib
import subprocess
import sys
import tempfile

HERE = pathlib.Path(__file__).resolve().parent
sys.dont_write_bytecode = True
sys.path.append(str(HERE.parent / "scripts"))
from histories import Event, copies_of, is_accepted, text_of

WORKLOADS = ("transfers", "subactions", "nested", "arms")


def make(name, count, folder, program):
    """Writes a workload and the trace of its steps, and gives how many events there are."""
    subprocess.run([sys.executable, HERE / "workloads.py", name, str(count), folder], check=True)
    made = subprocess.run([program, "steps", folder / "setup.json", folder / "steps"], capture_output=True, text=True, check=True)
    steps = (folder / "steps").read_text().splitlines()
    events = [event for event in map(Event, steps, made.stdout.splitlines()) if is_accepted(event.answer)]
    (folder / "trace").write_text(text_of((folder / "setup.json").read_text().strip(), copies_of(events)))
    return len(events)


def measure(*words):
    """CPU seconds and peak memory in bytes."""
    child = subprocess.Popen(words, stdout=subprocess.DEVNULL)
    _pid, status, used = os.wait4(child.pid, 0)
    if status:
        sys.exit(f"{words}: status {status}")
    return used.ru_utime + used.ru_stime, used.ru_maxrss * 1024


def row_of(name, count, rounds, program):
    """The workload's line of the table."""
    with tempfile.TemporaryDirectory() as scratch:
        folder = pathlib.Path(scratch)
        events = make(name, count, folder, program)
        steps = (program, "steps", folder / "setup.json", folder / "steps")
        pairs = [(measure(program, "trace", folder / "trace"), measure(*steps)) for _ in range(rounds)]
        size = (folder / "trace").stat().st_size
    gathered, made = (min(pair[which][0] for pair in pairs) for which in (0, 1))
    peak = max(pair[0][1] for pair in pairs)
    return f"| {name} | {events:,} | {size / 1e6:.1f} | {gathered:.2f} | {made:.2f} | {gathered / made:.2f} | {peak / size:.2f} |"


def main(words):
    if not 1 <= len(words) <= 3:
        sys.exit(__doc__)
    program, (count, rounds) = words[0], [*map(int, words[1:]), *(250_000, 5)[len(words) - 1 :]]
    print("| workload | events | MB | CPU seconds of the trace | of the steps | ratio | memory, times the file |\n|---|---|---|---|---|---|---|")
    for name in WORKLOADS:
        print(row_of(name, count, rounds, program), flush=True)


main(sys.argv[1:])
