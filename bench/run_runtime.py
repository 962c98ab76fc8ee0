#!/usr/bin/env python3
"""`run_runtime.py PROGRAM [STEPS [TRANSFERS]]`: what a step costs by a runtime, where PROGRAM is `lock_runs`.

First each workload of about STEPS steps (100,000 if nothing is said), by a world and by a runtime with one caller. Then TRANSFERS transfers (20,000)
between pairs of 64 guardians, and as many operations, by 1, 2 and 4 threads: over a runtime, and over a world under one lock. Last the same number of
transfers by PostgreSQL with fsync off, by 1 and by 4 clients with databases of their own, if its server and libpq are installed."""
import json
import pathlib
import re
import subprocess
import sys
import tempfile
import time

sys.dont_write_bytecode = True
import run_transfers
import workloads


def steps_by(program, name, count):
    """Nanoseconds a step, by a world and by a runtime."""
    setup, make = workloads.KINDS[name]
    text = json.dumps(setup) + "\n" + "".join(workloads.lines(make, count))
    printed = subprocess.run([program, "steps"], input=text, capture_output=True, text=True, check=True).stdout
    made, world, runtime = map(int, re.fullmatch(r"(\d+) steps: world (\d+), runtime (\d+)\n", printed).groups())
    return made, world / made, runtime / made


def threads_by(program, count):
    """Nanoseconds of each work, by its name and the number of threads: over a world and over a runtime."""
    printed = subprocess.run([program, "threads", str(count)], capture_output=True, text=True, check=True).stdout
    line = re.compile(r"(\d+) threads, \d+ (\w+) each: world (\d+), runtime (\d+)")
    return {(work, int(threads)): (int(world), int(runtime)) for threads, work, world, runtime in line.findall(printed)}


def clients_by(server, clients, count):
    """Seconds of so many transfers by PostgreSQL's clients, which run at once."""
    share = count // clients
    words = [[server.program, server.data, str(share), str(2 * client + 1), "2"] for client in range(clients)]
    begun = time.monotonic()
    running = [subprocess.Popen(each) for each in words]
    if any(each.wait() for each in running):
        sys.exit("a client of PostgreSQL failed")
    return time.monotonic() - begun


def main():
    program = pathlib.Path(sys.argv[1]).resolve()
    steps, transfers = [int(word) for word in sys.argv[2:]] + [100_000, 20_000][len(sys.argv) - 2:]
    print("| workload | steps | world, ns a step | runtime, ns a step | times |\n|---|---|---|---|---|")
    for name in "subactions", "transfers", "nested", "arms":
        made, world, runtime = steps_by(program, name, steps)
        print(f"| {name} | {made:,} | {world:,.0f} | {runtime:,.0f} | {runtime / world:.2f} |", flush=True)
    taken = threads_by(program, transfers)
    print("\n| work | threads | runtime, each second | times one thread | world under one lock, each second |\n|---|---|---|---|---|")
    for (work, threads), (world, runtime) in sorted(taken.items()):
        faster = taken[work, 1][1] / runtime
        print(f"| {work} | {threads} | {transfers / runtime * 1e9:,.0f} | {faster:.2f} | {transfers / world * 1e9:,.0f} |", flush=True)
    bin = run_transfers.server_folder()
    if not bin:
        return
    with tempfile.TemporaryDirectory(dir=".") as scratch:
        server = run_transfers.Postgres(pathlib.Path(scratch).resolve(), bin, 8, "-c fsync=off")
        try:
            print("\n| PostgreSQL, clients | transfers each second |\n|---|---|")
            for clients in 1, 4:
                print(f"| {clients} | {transfers / clients_by(server, clients, transfers):,.0f} |", flush=True)
        finally:
            server.stop()


main()
