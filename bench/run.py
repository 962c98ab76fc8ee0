#!/usr/bin/env python3
"""`run.py PROGRAM [STEPS ..]`: runs PROGRAM on each workload of about STEPS steps (10,000 where none is said), and prints steps a second and
peak memory; then what a file of refused steps and one long line cost beside an empty file. A run is cut after ten minutes."""
import os
import pathlib
import subprocess
import sys
import tempfile
import time

HERE = pathlib.Path(__file__).resolve().parent
LIMIT = 600


def make(name, count, folder):
    subprocess.run([sys.executable, HERE / "workloads.py", name, str(count), folder], check=True)


def measure(program, folder):
    """Seconds, peak memory in KiB, and lines answered."""
    out = folder / "answers"
    with out.open("wb") as answers:
        begun = time.monotonic()
        child = subprocess.Popen([program, "steps", folder / "setup.json", folder / "steps"], stdout=answers)
        while True:
            pid, _status, used = os.wait4(child.pid, os.WNOHANG)
            if pid:
                break
            if time.monotonic() - begun > LIMIT:
                child.kill()
                _pid, _status, used = os.wait4(child.pid, 0)
                break
            time.sleep(0.01)
        taken = time.monotonic() - begun
    with out.open("rb") as answers:
        return taken, used.ru_maxrss, sum(1 for _ in answers)


def main():
    program = sys.argv[1]
    counts = [int(word) for word in sys.argv[2:]] or [10_000]
    with tempfile.TemporaryDirectory() as scratch:
        folder = pathlib.Path(scratch)
        print("| workload | steps | seconds | steps a second | peak memory, MB |\n|---|---|---|---|---|")
        for count in counts:
            for name in ("subactions", "transfers", "nested", "arms", "small-arrays", "arrays"):
                make(name, count, folder)
                taken, peak, answered = measure(program, folder)
                print(f"| {name} | {answered:,} | {taken:.2f} | {answered / taken:,.0f} | {peak / 1024:.1f} |", flush=True)
        for name, count in ("refused", 0), ("refused", 1_000_000), ("long-line", 100_000_000):
            make(name, count, folder)
            taken, peak, answered = measure(program, folder)
            print(f"| {name} ({count:,}) | {answered:,} | {taken:.2f} | | {peak / 1024:.1f} |", flush=True)


main()
