#!/usr/bin/env python3
"""run_clients.py PROGRAM [TRANSFERS [CLIENTS]]: times the clients of a script in threads, and one after another.

Each of CLIENTS clients (8) makes TRANSFERS transfers (10,000), in a nested top action each: it adds to a counter at its
own guardian, and calls the next guardian, which subtracts from another. So clients share guardians, and wait for
nobody's lock. The budget of a client is too small for 20,000 transfers. The two ways take turns. The median of five
rounds is printed, with what a thread more costs: a script of 64 clients that do nothing, beside one of a single client."""
import json
import pathlib
import statistics
import subprocess
import sys
import tempfile
import time

ROUNDS = 5
THREADS = 64


def guardian():
    handler = {"params": [], "gives": "none", "body": [{"op": [2, "add", -1]}]}
    return {"objects": [{"counter": 0}, {"counter": 0}], "handlers": {"take": handler}}


def transfers(clients, count):
    def client(number):
        other = number % clients + 1
        body = [{"op": [1, "add", 1]}, {"call": [other, "take", []]}]
        return {"home": number, "body": [{"repeat": [count, [{"topaction": body}]]}]}

    return {"guardians": [guardian() for _ in range(clients)], "clients": [client(n + 1) for n in range(clients)]}


def idle(clients):
    return {"guardians": [{"objects": [], "handlers": {}}], "clients": [{"home": 1, "body": []}] * clients}


def seconds(wanted, *words):
    """How long the run takes, which must print this."""
    began = time.perf_counter()
    done = subprocess.run(words, check=True, stdout=subprocess.PIPE, text=True)
    taken = time.perf_counter() - began
    if done.stdout != wanted:
        sys.exit(f"{words}: it printed other ends than those of clients that commit")
    return taken


def printed(script, count):
    """What a run of the script prints, whose clients make so many transfers each."""
    ends = "".join(f"client {number} committed\n" for number in range(1, len(script["clients"]) + 1))
    homes = [home for home, guardian in enumerate(script["guardians"], 1) if guardian["objects"]]
    return ends + "".join(f'{home}/1 {{"counter":{count}}}\n{home}/2 {{"counter":{-count}}}\n' for home in homes)


def medians(program, script, count=0):
    """How long the script takes in threads, and one client after another."""
    wanted = printed(script, count)
    with tempfile.TemporaryDirectory() as folder:
        file = pathlib.Path(folder) / "script.json"
        file.write_text(json.dumps(script))
        both = [(seconds(wanted, program, "run", file), seconds(wanted, program, "run", "--serial", file)) for _ in range(ROUNDS)]
    return [statistics.median(times) for times in zip(*both)]


def main(words):
    if not 1 <= len(words) <= 3:
        sys.exit(__doc__)
    count, clients = [*map(int, words[1:]), *(10_000, 8)[len(words) - 1 :]]
    apart, serial = medians(words[0], transfers(clients, count), count)
    print(f"{clients} clients of {count} transfers: {apart:.2f} s in threads, {serial:.2f} s serially, {serial / apart:.2f} times")
    many, _ = medians(words[0], idle(THREADS))
    one, _ = medians(words[0], idle(1))
    print(f"a thread more: {(many - one) / (THREADS - 1) * 1e6:.0f} microseconds")


main(sys.argv[1:])
