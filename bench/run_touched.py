#!/usr/bin/env python3
"""`run_touched.py PROGRAM [CASE ..]`: what a step costs where there is much that it does not touch; CASE is the name of a function below. Each row
runs the same steps beside little and beside much, and tells how much longer one took. It ends where a step is answered as was not meant. Times are CPU times: the fastest of five runs, less the fastest of five runs of the steps that
come before. Instructions are counted by valgrind where it is installed, of fewer steps, and do not depend on the machine's speed."""
import json
import os
import pathlib
import re
import resource
import shutil
import subprocess
import sys
import tempfile

from workloads import setup, two_phases

TURNS = 5
UNMEANT = (b"refused", b"waits", b"error", b"vote no")


def array(items):
    return {"guardians": [{"objects": [{"array": {"of": "int", "low": 1, "items": [0] * items}}]}]}


class Steps:
    """Lines of a steps file, with the numbers that top actions get."""

    def __init__(self):
        self.lines, self.tops = [], 0

    def say(self, line):
        self.lines.append(line)

    def top(self, guardian):
        self.say(f"top {guardian}")
        self.tops += 1
        return self.tops

    def end(self, action, *guardians):
        self.say(f"commit {action}")
        for guardian in guardians:
            self.say(f"tell {guardian} {action}")

    def use(self, action, thing, value):
        self.say(f"op {action} {thing} get n")
        self.say(f"op {action} {thing} set n {value}")

    def both_phases(self, top, *guardians):
        self.lines.extend(two_phases(top, guardians))


def nothing(_steps):
    """No steps come before."""


def objects(many, times):
    """One object of MANY is written by top actions that commit."""
    def after(steps):
        for turn in range(times // 6):
            top = steps.top(1)
            steps.use(top, f"1/{many}", turn)
            steps.both_phases(top, 1)
    return setup(1, many, "n"), nothing, after


def guardians(many, times):
    """Two guardians of MANY take part in each top action."""
    def after(steps):
        for turn in range(times // 15):
            top = steps.top(1)
            steps.use(top, "1/1", turn)
            steps.say(f"call {top} {many}")
            steps.use(f"{top}.1", f"{many}/1", turn)
            steps.end(f"{top}.1", many, 1)
            steps.both_phases(top, 1, many)
    return setup(many, 1, "n"), nothing, after


def items(many, times):
    """One item of an array of MANY is stored, by one top action."""
    def before(steps):
        steps.top(1)

    def after(steps):
        for turn in range(times):
            steps.say(f"op 1 1/1 store {turn * 7919 % many + 1} {turn}")
    return array(many), before, after


def committed_items(many, times):
    """One item of an array of MANY is stored by each top action, which commits."""
    def after(steps):
        for turn in range(times // 6):
            top = steps.top(1)
            steps.say(f"op {top} 1/1 store {turn * 7919 % many + 1} {turn}")
            steps.both_phases(top, 1)
    return array(many), nothing, after


def deep(many, times):
    """An action MANY deep reads and writes."""
    def before(steps):
        name = str(steps.top(1))
        for _ in range(many - 1):
            steps.say(f"call {name} 1")
            name += ".1"

    def after(steps):
        name = "1" + ".1" * (many - 1)
        for turn in range(times // 2):
            steps.use(name, "1/1", turn)
    return setup(1, 1, "n"), before, after


def chains(many, times):
    """Chains of actions MANY deep, each of which writes what the one above wrote and commits."""
    def after(steps):
        while len(steps.lines) < times:
            names = [str(steps.top(1))]
            for _ in range(many - 1):
                steps.say(f"call {names[-1]} 1")
                names.append(names[-1] + ".1")
                steps.say(f"op {names[-1]} 1/1 set n 1")
            for name in names[:0:-1]:
                steps.end(name, 1)
            steps.both_phases(names[0], 1)
    return setup(1, 1, "n"), nothing, after


def aborts_known(steps, many):
    for _ in range(many):
        top = steps.top(1)
        steps.say(f"abort {top}")
        steps.say(f"tell 1 {top}")


def callers(many, times):
    """A guardian that knows MANY aborts is called by 1,000 others, in turn."""
    def before(steps):
        aborts_known(steps, many)

    def after(steps):
        for turn in range(times // 3):
            other = turn % 1000 + 2
            top = steps.top(other)
            steps.say(f"call {top} 1")
            steps.say(f"op {top}.1 1/{turn % 1000 + 1} get n")
    return setup(1001, 1000, "n"), before, after


def told_callers(many, times):
    """The same, and ten others are told of the calls, which they were before."""
    def call(steps, other):
        top = steps.top(other)
        steps.say(f"call {top} 1")
        steps.end(f"{top}.1", other, 1)

    def before(steps):
        aborts_known(steps, many)
        for turn in range(20):
            call(steps, turn % 10 + 2)

    def after(steps):
        for turn in range(times // 5):
            call(steps, turn % 10 + 2)
    return setup(11, 1, "n"), before, after


def participants(many, times):
    """Top actions call MANY participants and commit."""
    def after(steps):
        while len(steps.lines) < times:
            top = steps.top(1)
            for guardian in range(2, many + 1):
                steps.say(f"call {top} {guardian}")
                steps.say(f"op {top}.{guardian - 1} {guardian}/1 set n {top}")
                steps.end(f"{top}.{guardian - 1}", guardian, 1)
            steps.both_phases(top, *range(1, many + 1))
    return setup(1024, 1, "n"), nothing, after


def descendants(many, _times):
    """An action with MANY descendants aborts, and a guardian is told where none of them holds anything."""
    def before(steps):
        top = steps.top(1)
        steps.say(f"call {top} 1")
        for number in range(1, many + 1):
            steps.say(f"call {top}.1 2")
            steps.say(f"op {top}.1.{number} 2/1 get n")
            steps.end(f"{top}.1.{number}", 1)

    def after(steps):
        steps.say("abort 1.1")
        steps.say("tell 1 1.1")
        steps.top(1)
    return setup(2, 1, "n"), before, after


def siblings(many, _times):
    """One top action has MANY subactions that each hold an object and committed, and a guardian is told of ten of them."""
    def before(steps):
        top = steps.top(1)
        for number in range(1, many + 1):
            steps.say(f"call {top} 1")
            steps.say(f"op {top}.{number} 1/{number} set n {number}")
            steps.say(f"commit {top}.{number}")

    def after(steps):
        for number in range(1, 11):
            steps.say(f"tell 1 1.{number}")
    return setup(1, 1000, "n"), before, after


CASES = [
    ("one object is used", "objects", objects, 1, 1024, 120_000),
    ("two guardians take part", "guardians", guardians, 2, 1024, 60_000),
    ("one item is stored, by one top action", "items", items, 64, 65_536, 100_000),
    ("one item is stored by each top action", "items", committed_items, 64, 65_536, 60_000),
    ("an operation of an action", "deep", deep, 2, 32, 100_000),
    ("actions in chains, each commits", "deep", chains, 2, 32, 60_000),
    ("called by 1,000 others", "aborts known", callers, 1_000, 100_000, 150_000),
    ("ten others are told of calls", "aborts known", told_callers, 1_000, 100_000, 50_000),
    ("top actions call all participants and commit", "participants", participants, 10, 1_000, 60_000),
    ("an abort, telling it where nobody holds anything, and a top action", "descendants", descendants, 10, 10_000, 0),
    ("telling that a subaction committed", "siblings that hold something", siblings, 10, 1_000, 0),
]


class Program:
    def __init__(self, program, folder):
        self.program, self.folder = program, folder

    def write(self, name, opening, steps):
        folder = self.folder / name
        folder.mkdir(exist_ok=True)
        (folder / "setup.json").write_text(json.dumps(opening, separators=(",", ":")) + "\n")
        (folder / "steps").write_text("".join(line + "\n" for line in steps))
        return [self.program, "steps", folder / "setup.json", folder / "steps"]

    def run(self, words):
        """Runs the words with answers that are looked through, and gives what came on the other stream."""
        with (self.folder / "answers").open("wb") as answers:
            said = subprocess.run(words, stdout=answers, stderr=subprocess.PIPE, text=True, check=True).stderr
        with (self.folder / "answers").open("rb") as answers:
            if any(line.startswith(UNMEANT) for line in answers):
                sys.exit(f"{words[-1]}: a step is answered as was not meant")
        return said

    def seconds(self, words):
        used = resource.getrusage(resource.RUSAGE_CHILDREN)
        self.run(words)
        now = resource.getrusage(resource.RUSAGE_CHILDREN)
        return now.ru_utime + now.ru_stime - used.ru_utime - used.ru_stime

    def instructions(self, words):
        counted = self.run(["valgrind", "--tool=cachegrind", "--cache-sim=no", "--cachegrind-out-file=/dev/null", *words])
        return int(re.search(r"I\s+refs:\s+([\d,]+)", counted)[1].replace(",", ""))

    def beside(self, case, many, times):
        """The steps before, and with what comes after; how many those are."""
        opening, before, after = case(many, times)
        steps = Steps()
        before(steps)
        first = len(steps.lines)
        shorter = self.write(case.__name__ + "-before", opening, steps.lines)
        after(steps)
        longer = self.write(case.__name__, opening, steps.lines)
        return shorter, longer, len(steps.lines) - first

    def microseconds(self, case, many, times):
        shorter, longer, count = self.beside(case, many, times)
        less, more = (min(self.seconds(words) for _ in range(TURNS)) for words in (shorter, longer))
        return (more - less) / count * 1e6

    def counted(self, case, many, times):
        shorter, longer, count = self.beside(case, many, times // 6)
        return (self.instructions(longer) - self.instructions(shorter)) / count


def cells(figures, place, shown):
    """A figure, and beside much how many times it is that beside little."""
    if not figures:
        return ["", ""]
    return [shown.format(figures[place]), f"{figures[1] / figures[0]:.2f}" if place else ""]


def main():
    chosen = sys.argv[2:]
    counting = shutil.which("valgrind")
    print(f"load: {', '.join(f'{load:.1f}' for load in os.getloadavg())} on {os.cpu_count()} processors")
    print("| steps | beside | microseconds each | times longer | instructions | times more |\n|---|---|---|---|---|---|")
    with tempfile.TemporaryDirectory() as scratch:
        program = Program(sys.argv[1], pathlib.Path(scratch))
        for what, beside, case, little, much, times in CASES:
            if chosen and case.__name__ not in chosen:
                continue
            took = [program.microseconds(case, many, times) for many in (little, much)] if times else []
            made = [program.counted(case, many, times) for many in (little, much)] if counting else []
            for place, many in enumerate((little, much)):
                row = [what, f"{many:,} {beside}", *cells(took, place, "{:,.2f}"), *cells(made, place, "{:,.0f}")]
                print("| " + " | ".join(row) + " |", flush=True)


main()
