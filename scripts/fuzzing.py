"""fuzzing.py PROGRAM INPUT: judges an input that the section fuzz of soak has saved, once more.

The section changes examples at random. Each change that brings a new kind of outcome is changed again.

What is wrong shows without another program: a signal, an exit status or a line that the output cannot have, two runs
that differ, answers of a beginning of the steps that do not begin those of all, a script that `check` and `run` see in
two ways. Which bytes are steps, setups and lines of a trace comes from a plain reading (spellings.py)."""
import collections
import itertools
import json
import pathlib
import random
import re
import sys
import tempfile
import threading
import zlib
from typing import NamedTuple
from xml.etree import ElementTree

import spellings
from examples import script_folders, step_folders, trace_folders, two_phases
from histories import Copy, Event, least_failing
from mutating import JSON, STORE, TEXT, mutated
from soaking import BATCH, NEW_ACTION, Came, compared, run, with_file
from spoilt_stores import REFUSED, first_file, settle, with_stores, wrong_opening

THREADED = "3"  # seconds of a run in threads
STORED = 0.1  # of all mutants, those that are stores
REPAIRED = 0.5  # of steps and traces, those that lose the lines that are none
KINDS = ("steps", "steps", "setup", "script", "script", "trace")  # of the others
ALL_KINDS = ("steps", "setup", "script", "trace", "store")
EXPLAINED = re.compile(rb"[0-9*]+(\.[0-9*]+)* [0-9.]+ [0-9]+/[0-9]+ .* -> .*")
ENDED = re.compile(rb"client [0-9]+ (committed(?: .*)?|aborted)")
BASE = re.compile(rb"[0-9]+/[0-9]+ \{.*\}")
FAULT = re.compile(rb"fault ([1-9]|1[0-2]) (/|(/[^/]*)+)\n")


class Mutant(NamedTuple):
    number: int
    kind: str
    content: bytes
    beside: object  # the setup of steps, the steps of a setup, the example of a store


class Found(NamedTuple):
    """The run that tells the kind of outcome, and what is wrong, or nothing."""

    came: Came
    fault: str | None


def shape(line):
    """The line without its names, numbers and texts; but the number of a refusal or of a fault stays."""
    line = re.sub(rb'"(?:[^"\\]|\\.)*"', b"TEXT", line)
    if found := re.match(rb"refused \d+|fault \d+", line):
        return found[0].decode()
    line = re.sub(rb"\{.*\}", b"CONTENT", line)
    line = re.sub(rb"-?\d+(\.\d+)*", b"N", line)
    return re.sub(rb"( N)+", b" N", line)[:60].decode(errors="replace")


def outcome_of(kind, came):
    return kind, came.status, came.fault.decode(errors="replace")[:60], shape((came.written.splitlines() or [b""])[-1])


# ---- what must be so of any input


def wrong_answers(came, steps):
    """What is wrong in the answers to steps, or nothing."""
    lines = spellings.split(steps)
    good = list(itertools.takewhile(lambda line: line.endswith(b"\n") and spellings.is_step(line[:-1]), lines))
    said = spellings.split(came.written)
    error = [] if len(good) == len(lines) else [b"error %d\n" % (len(good) + 1)]
    are_answers = all(line.endswith(b"\n") and spellings.is_answer(line[:-1]) for line in said[: len(good)])
    is_counted = len(said) == len(good) + len(error) and said[len(good) :] == error
    is_right = came.status == len(error) and not came.fault and is_counted and are_answers
    return None if is_right else f"{came}; wanted {len(good)} answers and {error}"


def without_error(written):
    return re.sub(rb"(?:^|(?<=\n))error [0-9]+\n\Z", b"", written)


class Judge:
    """Hands a mutant to the program, and says what is wrong."""

    def __init__(self, program, mutant):
        self.program, self.mutant = program, mutant
        self.rng = random.Random(zlib.crc32(mutant.content))
        self.runs = 0

    def run(self, *words, given=b""):
        self.runs += 1
        return run(self.program, *words, given=given)

    def found(self):
        return getattr(self, self.mutant.kind)()

    # ---- steps

    def steps(self):
        return with_file(self.mutant.beside, lambda setup: self.steps_of(setup, self.mutant.content))

    def setup(self):
        content, steps = self.mutant.content, self.mutant.beside
        if spellings.is_setup(content):
            return with_file(content, lambda setup: self.steps_of(setup, steps))
        came = with_file(content, lambda setup: self.run("steps", setup, "-", given=steps))
        return Found(came, compared(came, Came(1, b"error setup\n", b"")))

    def steps_of(self, setup, steps):
        came = self.run("steps", setup, "-", given=steps)
        fault = wrong_answers(came, steps) or self.wrong_beginning(came, setup, steps)
        also = self.rng.choice([self.again, self.stored, self.explained, self.drawn])
        return Found(came, fault or also(came, setup, steps))

    def wrong_beginning(self, came, setup, steps):
        """What is wrong in the answers to a beginning of the steps, or nothing."""
        cut = steps[: self.rng.randrange(len(steps) + 1)]
        begun = self.run("steps", setup, "-", given=cut)
        if fault := wrong_answers(begun, cut):
            return f"cut after {len(cut)} bytes: {fault}"
        is_beginning = came.written.startswith(without_error(begun.written))
        return None if is_beginning else f"cut after {len(cut)} bytes: {begun}; wanted a beginning of {came}"

    def again(self, came, setup, steps):
        return with_file(steps, lambda file: compared(self.run("steps", setup, file), came))

    def stored(self, came, setup, steps):
        """The same answers come over stores in files, and the system opens again from these."""
        with tempfile.TemporaryDirectory() as stores:
            if fault := compared(self.run("steps", "--store", stores, setup, "-", given=steps), came):
                return f"--store: {fault}"
            opened = self.run("steps", "--store", stores, "--reopen", setup, "-", given=NEW_ACTION)
            is_open = opened.status == 0 and wrong_opening(opened) is None
            return None if is_open else f"--reopen: {opened}; wanted an answer"

    def explained(self, came, setup, steps):
        names = re.findall(rb"(?:began|waits) ([0-9.]+)", came.written) or [b"1"]
        name = self.rng.choice([*names, b"1.1", b"0", b"x"]).decode(errors="replace")
        told = self.run("steps", "--explain", name, setup, "-", given=steps)
        rest = told.written.removeprefix(came.written)
        if came.status:
            return compared(told, came)
        is_told = rest in (b"orphan\n", b"refused 2\n") or all(EXPLAINED.fullmatch(line) for line in rest.splitlines())
        is_right = told == Came(0, came.written + rest, b"") and is_told
        return None if is_right else f"--explain {name}: {told}; wanted {came} and lines on an action"

    def drawn(self, came, setup, steps):
        with tempfile.TemporaryDirectory() as folder:
            out = pathlib.Path(folder, "out")
            if fault := compared(self.run("steps", "--picture", out, setup, "-", given=steps), came):
                return f"--picture: {fault}"
            if came.status == 0:
                ElementTree.parse(out)
            return f"--picture: it is there, though {came}" if came.status and out.exists() else None

    # ---- scripts

    def script(self):
        return with_file(self.mutant.content, self.script_in)

    def script_in(self, file):
        checked = self.run("check", file)
        ran = self.run("run", "--serial", file)
        if checked == Came(0, b"ok\n", b""):
            return Found(ran, self.wrong_run(file, ran))
        is_fault = checked.status == 1 and FAULT.fullmatch(checked.written) and not checked.fault
        if not is_fault:
            return Found(checked, f"{checked}; wanted ok or a fault")
        try:
            spellings.read_json(self.mutant.content)
        except (ValueError, RecursionError):
            is_fault = checked.written == b"fault 1 /\n"
        return Found(checked, compared(ran, checked) or (None if is_fault else f"{checked}; wanted fault 1 /"))

    def wrong_run(self, file, ran):
        """What is wrong in the serial run of a script, or nothing."""
        document = json.loads(self.mutant.content)
        forms = [ENDED] * len(document["clients"]) + [BASE for it in document["guardians"] for _ in it["objects"]]
        lines = ran.written.splitlines()
        are_formed = len(lines) == len(forms) and all(form.fullmatch(line) for form, line in zip(forms, lines))
        if ran.status or ran.fault or not are_formed:
            return f"{ran}; wanted {len(forms)} lines"
        return self.rng.choice([self.again_by_trace, self.in_threads])(file, ran, forms)

    def again_by_trace(self, file, ran, forms):
        with tempfile.TemporaryDirectory() as folder:
            out = pathlib.Path(folder, "out")
            if fault := compared(self.run("run", "--serial", "--trace", out, file), ran):
                return f"--trace: {fault}"
            said = self.run("trace", out)
            return None if said.status == 0 and said.written.startswith(b"yes ") else f"trace: {said}; wanted yes"

    def in_threads(self, file, ran, forms):
        came = self.run("run", "--seconds", THREADED, file)
        lines = came.written.splitlines()
        fits = came == Came(2, b"", b"fault time\n") or (came.status, came.fault, len(lines)) == (0, b"", len(forms))
        return None if fits else f"--seconds {THREADED}: {came}; wanted {len(forms)} lines, or that the time is over"

    # ---- traces and stores

    def trace(self):
        content = self.mutant.content
        came, read = self.run("trace", "-", given=content), spellings.read_trace(content)
        if isinstance(read, str):
            return Found(came, compared(came, Came(1, f"{read}\n".encode(), b"")))
        copies = [Copy(it.history, it.stamp, Event(it.step.decode(), it.answer.decode())) for it in read]
        stamps = sorted({copy.stamp for copy in copies})
        guardians = len(spellings.read_json(content.partition(b"\n")[0].removeprefix(b"setup "))["guardians"])
        latest = least_failing(copies, guardians, set())  # an answer may be wrong before
        allowed = [Came(1, b"no %d\n" % stamp, b"") for stamp in stamps if latest is None or stamp <= latest]
        allowed += [] if latest else [Came(0, b"yes %d\n" % len(stamps), b"")]
        fault = None if came in allowed else f"{came}; wanted one of {len(allowed)} lines, such as {allowed[-1]}"
        return Found(came, fault or compared(with_file(content, lambda file: self.run("trace", file)), came))

    def store(self):
        def use(stores):
            file = stores / "g1.db"
            settle(file)
            file.write_bytes(self.mutant.content)
            came = self.run(
                "steps", "--store", stores, "--reopen", self.mutant.beside / "setup.json", "-", given=NEW_ACTION
            )
            is_changed = came == REFUSED and file.read_bytes() != self.mutant.content
            return Found(came, wrong_opening(came) or ("the file that was refused has changed" if is_changed else None))

        self.runs += 1
        return with_stores(self.program, self.mutant.beside, use)


# ---- the inputs


def only_steps(content):
    return b"".join(line for line in spellings.split(content) if line.endswith(b"\n") and spellings.is_step(line[:-1]))


def only_lines(content):
    """The setup line, and the lines of a trace behind it, in the order of their histories."""
    first, *lines = spellings.split(content) or [b""]
    lines = [(line, spellings.trace_line(line[:-1])) for line in lines if line.endswith(b"\n")]
    return first + b"".join(line for line, it in sorted(lines, key=lambda it: it[1].history if it[1] else 0) if it)


REPAIRS = {"steps": only_steps, "trace": only_lines}


def seeds(program):
    """The examples, by their kinds: what is changed, and what stands beside it."""
    pairs = [((folder / "steps").read_bytes(), (folder / "setup.json").read_bytes()) for folder in step_folders()]
    return {
        "steps": (TEXT, pairs),
        "setup": (JSON, [(setup, steps) for steps, setup in pairs]),
        "script": (JSON, [((folder / "script.json").read_bytes(), None) for folder in script_folders()]),
        "trace": (TEXT, [((folder / "trace").read_bytes(), None) for folder in trace_folders()]),
        "store": (STORE, [(first_file(program, folder), folder) for folder in two_phases()]),
    }


class Fuzzer:
    def __init__(self, given):
        self.given = given
        self.rng = random.Random(given.seed)
        self.inputs = seeds(given.program)
        self.room = pathlib.Path(tempfile.mkdtemp(prefix="argus-fuzz-"))
        self.lock = threading.Lock()
        self.numbers = itertools.count(1)
        self.outcomes, self.kinds, self.runs = {}, collections.Counter(), 0

    def mutant(self):
        kind = self.given.kind or ("store" if self.rng.random() < STORED else self.rng.choice(KINDS))
        ways, inputs = self.inputs[kind]
        content, beside = self.rng.choice(inputs)
        other, _ = self.rng.choice(inputs)
        content = mutated(self.rng, ways, content, other)
        if kind in REPAIRS and self.rng.random() < REPAIRED:
            content = REPAIRS[kind](content)
        return Mutant(next(self.numbers), kind, content, beside)

    def judge(self, mutant):
        """What is wrong with a mutant, or nothing. Its input is saved if something is."""
        judge = Judge(self.given.program, mutant)
        try:
            found = judge.found()
            fault, outcome = found.fault, outcome_of(mutant.kind, found.came)
        except Exception as error:  # a run took too long, or its output could not be read
            fault, outcome = f"{type(error).__name__}: {error}", (mutant.kind, type(error).__name__, "", "")
        with self.lock:
            self.runs += judge.runs
            self.outcomes[mutant.number] = outcome
        return fault and f"{fault}; the input is {self.saved(mutant)}"

    def saved(self, mutant):
        file = self.room / f"{mutant.number}.{mutant.kind}"
        file.write_bytes(mutant.content)
        if mutant.beside is not None:
            beside = mutant.beside if isinstance(mutant.beside, bytes) else str(mutant.beside).encode()
            file.with_suffix(".beside").write_bytes(beside)
        return file

    def keep(self, mutants):
        """Keeps the mutants whose kind of outcome is new."""
        for mutant in mutants:
            outcome = self.outcomes.pop(mutant.number, None)
            if outcome and outcome not in self.kinds:
                self.inputs[mutant.kind][1].append((mutant.content, mutant.beside))
            self.kinds[outcome] += 1

    def report(self):
        print(f"fuzz: seed {self.given.seed}, {self.runs} runs of the program, {len(self.kinds)} kinds of outcome")
        for outcome, count in sorted(self.kinds.items(), key=str):
            print(f"fuzz: {count} times {outcome}")


def fuzz(given):
    fuzzer = Fuzzer(given)
    try:
        while True:
            mutants = [fuzzer.mutant() for _ in range(BATCH)]
            for mutant in mutants:
                yield f"mutant {mutant.number}, {mutant.kind}", fuzzer.judge, mutant
            fuzzer.keep(mutants)
    finally:
        fuzzer.report()


def again(program, file):
    """What is wrong with an input that was saved, or nothing."""
    kind, beside = file.suffix.removeprefix("."), file.with_suffix(".beside")
    beside = beside.read_bytes() if beside.exists() else None
    beside = pathlib.Path(beside.decode()) if kind == "store" else beside
    return Judge(program, Mutant(0, kind, file.read_bytes(), beside)).found()


if __name__ == "__main__":
    if len(sys.argv) != 3:
        sys.exit(__doc__)
    found = again(sys.argv[1], pathlib.Path(sys.argv[2]))
    print(found.fault or f"nothing is wrong: {found.came}")
    sys.exit(found.fault is not None)
