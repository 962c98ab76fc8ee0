#!/usr/bin/env python3
"""Steps files for measuring: `workloads.py NAME STEPS DIR` writes DIR/setup.json and DIR/steps with about STEPS steps.

subactions  one guardian; each top action has a subaction that commits and one that aborts, and aborts itself (six kinds of step)
transfers   four guardians; each top action writes an account at home and one elsewhere, and goes through both phases
nested      two guardians; each top action is a chain of sixteen subactions to and fro, all of which write one record
arms        one guardian of 1,024 records; each top action has sixteen arms, each of which writes a record of its own
arrays      one guardian of five arrays of 10,000 items; each top action has a subaction that commits and one that
            aborts, and each of them stores an item and adds one; the top action fetches an item, removes one, stores
            one, and goes through both phases
small-arrays  the same steps, with arrays of 10 items
refused     one guardian; every step is refused
long-line   one line of STEPS bytes, which is no step
"""
import json
import pathlib
import sys


def setup(guardians, objects, field):
    return {"guardians": [{"objects": [{"record": {field: 0}}] * objects}] * guardians}


def array_setup(items):
    return {"guardians": [{"objects": [{"array": {"of": "int", "low": 1, "items": [0] * items}}] * 5}]}


def subactions(top):
    record = f"1/{top % 64 + 1}"
    yield "top 1"
    for child, end in (1, "commit"), (2, "abort"):
        name = f"{top}.{child}"
        yield f"call {top} 1"
        yield f"op {name} {record} get n"
        yield f"op {name} {record} set n {top}"
        yield f"{end} {name}"
        yield f"tell 1 {name}"
    yield f"op {top} {record} get n"
    yield f"abort {top}"
    yield f"tell 1 {top}"


def two_phases(top, guardians):
    yield f"close {top}"
    yield from (f"prepare {guardian} {top}" for guardian in guardians)
    yield f"decide {top}"
    yield from (f"tell {guardian} {top}" for guardian in guardians)


def transfers(top):
    home, other = top % 4 + 1, (top + 1) % 4 + 1
    yield f"top {home}"
    yield f"op {top} {home}/{top % 64 + 1} get n"
    yield f"op {top} {home}/{top % 64 + 1} set n -{top}"
    yield f"call {top} {other}"
    yield f"op {top}.1 {other}/{top % 64 + 1} get n"
    yield f"op {top}.1 {other}/{top % 64 + 1} set n {top}"
    yield f"commit {top}.1"
    yield from (f"tell {guardian} {top}.1" for guardian in (other, home))
    yield from two_phases(top, (home, other))


def nested(top):
    names = [str(top)]
    yield "top 1"
    for depth in range(16):
        guardian = depth % 2 + 1
        yield f"call {names[-1]} {guardian}"
        names.append(names[-1] + ".1")
        yield f"op {names[-1]} {guardian}/{top % 16 + 1} set n {depth}"
    for name in names[:0:-1]:
        yield f"commit {name}"
        yield from (f"tell {guardian} {name}" for guardian in (1, 2))
    yield from two_phases(top, (1, 2))


def arms(top):
    yield "top 1"
    yield f"arms {top}{' s' * 16}"
    for arm in range(1, 17):
        yield f"op {top}.{arm} 1/{(top * 16 + arm) % 1024 + 1} set n {top}"
    for arm in range(1, 17):
        yield f"commit {top}.{arm}"
        yield f"tell 1 {top}.{arm}"
    yield from two_phases(top, (1,))


def arrays(top):
    array = f"1/{(top - 1) % 5 + 1}"
    low = (top - 1) // 5 + 1  # each earlier top action at this array has added an item above, and removed the lowest
    yield "top 1"
    for child, end in (1, "commit"), (2, "abort"):
        name = f"{top}.{child}"
        yield f"call {top} 1"
        yield f"op {name} {array} store {low + 1} {top}"
        yield f"op {name} {array} addh {top}"
        yield f"{end} {name}"
        yield f"tell 1 {name}"
    yield f"op {top} {array} fetch {low + 2}"
    yield f"op {top} {array} reml"
    yield f"op {top} {array} store {low + 3} {top}"
    yield from two_phases(top, (1,))


KINDS = {
    "subactions": (setup(1, 64, "n"), subactions),
    "transfers": (setup(4, 64, "n"), transfers),
    "nested": (setup(2, 16, "n"), nested),
    "arms": (setup(1, 1024, "n"), arms),
    "arrays": (array_setup(10_000), arrays),
    "small-arrays": (array_setup(10), arrays),
}


def lines(make, count):
    top = made = 0
    while made < count:
        top += 1
        for line in make(top):
            made += 1
            yield line + "\n"


def main():
    name, count, folder = sys.argv[1], int(sys.argv[2]), pathlib.Path(sys.argv[3])
    folder.mkdir(parents=True, exist_ok=True)
    opening, make = KINDS.get(name, (setup(1, 1, "n"), None))
    (folder / "setup.json").write_text(json.dumps(opening, separators=(",", ":")) + "\n")
    with (folder / "steps").open("w") as steps:
        if name == "refused":
            steps.writelines("commit 1\n" for _ in range(count))
        elif name == "long-line":
            steps.write("x" * count + "\n")
        else:
            steps.writelines(lines(make, count))


if __name__ == "__main__":
    main()
