#!/usr/bin/env python3
"""`run_check.py PROGRAM [BYTES ..]`: checks a script of about BYTES bytes (1,000,000 and its half and quarter where none are said) in each of three shapes,
and prints CPU seconds and peak memory."""
import json
import os
import pathlib
import subprocess
import sys
import tempfile

# so many statements are about a million bytes
UNIT = 1_000_000


def one_long_body(size):
    """A client that binds and uses a variable over and over."""
    statements = [{"op": [1, "get", "n"], "into": "a"}, {"op": [1, "set", "n", {"add": [{"var": "a"}, 1]}]}]
    return script({}, statements * (size // len(json.dumps(statements))))


def many_variables(size):
    """A client that binds a new variable in each statement and compares it with the one before."""
    body, length = [], 0
    while length < size:
        number = len(body) // 2
        parts = [{"op": [1, "get", "n"], "into": f"v{number}"}, {"if": [{"eq": [{"var": f"v{number}"}, {"var": f"v{number // 2}"}]}, [], []]}]
        length += len(json.dumps(parts))
        body += parts
    return script({}, body)


def many_calls(size):
    """Handlers, as many as there may be, that each call the next ones over and over."""
    handlers = {}
    for number in range(64):
        calls = [{"call": [1, f"h{other:02}", []]} for other in range(number + 1, 64)] or [{"abort": True}]
        length = max(1, size // 64 // len(json.dumps(calls)))
        handlers[f"h{number:02}"] = {"params": [], "gives": "none", "body": calls * length}
    return script(handlers, [])


def script(handlers, body):
    return {"guardians": [{"objects": [{"record": {"n": 0}}], "handlers": handlers}], "clients": [{"home": 1, "body": body}]}


def measure(program, path):
    """CPU seconds, peak memory in KiB, and what was said."""
    read, write = os.pipe()
    child = subprocess.Popen([program, "check", path], stdout=write)
    os.close(write)
    with os.fdopen(read, "rb") as answer:
        said = answer.read().decode().strip()
    _pid, _status, used = os.wait4(child.pid, 0)
    return used.ru_utime + used.ru_stime, used.ru_maxrss, said


def main():
    program = sys.argv[1]
    sizes = [int(word) for word in sys.argv[2:]] or [UNIT // 4, UNIT // 2, UNIT]
    with tempfile.TemporaryDirectory() as folder:
        path = pathlib.Path(folder) / "script"
        print("| script | bytes | seconds | peak memory, MB | said |\n|---|---|---|---|---|")
        for make in one_long_body, many_variables, many_calls:
            for size in sizes:
                path.write_text(json.dumps(make(size)))
                seconds, peak, said = measure(program, path)
                print(f"| {make.__name__.replace('_', ' ')} | {path.stat().st_size:,} | {seconds:.2f} | {peak / 1024:.1f} | {said} |", flush=True)


main()
