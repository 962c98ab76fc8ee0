"""The runs of the program argus that refuse and soak make with one allocation refused: on the examples, over stores in
files, drawn, explained, opened again. It has the sections of soak in which allocations are refused, or calls fail, at
random, and in which calls move a few bytes."""
import itertools
import pathlib
import random
import subprocess
import sys
import tempfile
from typing import NamedTuple

sys.dont_write_bytecode = True
import examples
import failing_calls
import refusing
import soaking

STORES = "STORES"  # in the words of a case: a new folder
NOWHERE = "/dev/null"
MOST = 1  # bytes that a call moves
OK = b"ok\n"


class Case(NamedTuple):
    name: str
    words: list
    printed: bytes | None = None  # what it must print with ample memory, if that is known
    status: int = 0  # with which it must end then
    given: bytes = b""  # on standard input
    before: list | None = None  # the words of a run that makes what the new folder has at first


class Run(NamedTuple):
    met: bool  # whether the refusal was met
    status: int | None  # none if it came to no end
    printed: bytes
    said: str  # on standard error


def in_folder(words, folder):
    return [folder if word == STORES else word for word in words]


class Refuser:
    """Runs cases in which one allocation is refused; or one call fails, by the module failing_calls."""

    def __init__(self, library, kind=refusing):
        self.library, self.kind = library, kind
        self.made = {}  # the files that a run before left, by their names

    def run(self, case, number):
        """Runs the case with the allocation of this number refused, or with none if it is 0."""
        return self.run_in(case, self.kind.refused(self.library, number))

    def run_in(self, case, env):
        with tempfile.TemporaryDirectory() as stores:
            if case.before and not self.made:
                subprocess.run(in_folder(case.before, stores), capture_output=True, check=True)
                self.made = {file.name: file.read_bytes() for file in pathlib.Path(stores).iterdir()}
            for file, content in self.made.items():
                pathlib.Path(stores, file).write_bytes(content)
            words = in_folder(case.words, stores)
            try:
                done = subprocess.run(words, input=case.given, capture_output=True, env=env, timeout=soaking.seconds())
            except subprocess.TimeoutExpired:
                return Run(True, None, b"", f"no end within {soaking.seconds()} seconds")
        said = done.stderr.replace(self.kind.MARK, b"", 1).decode(errors="replace")
        return Run(self.kind.MARK in done.stderr, done.returncode, done.stdout, said)

    def refusals(self, case):
        """How many allocations or calls of a run can be refused."""
        met, unmet = 0, 1
        while self.run(case, unmet).met:
            met, unmet = unmet, 2 * unmet
        while unmet - met > 1:
            between = (met + unmet) // 2
            met, unmet = (between, unmet) if self.run(case, between).met else (met, between)
        return met


class Argus:
    """The program argus on the examples."""

    def __init__(self, program):
        self.program = program

    def cases(self):
        cases = [case for folder in examples.step_folders() for case in self.cases_of_steps(folder)]
        cases += [case for folder in examples.script_folders() for case in self.cases_of_script(folder)]
        return cases + [case for folder in examples.trace_folders() for case in self.cases_of_trace(folder)]

    def cases_of_script(self, folder):
        file = folder / "script.json"
        if not (folder / "ran").exists():
            said = examples.said_of(folder)
            return [Case(folder.name, [self.program, "check", file], said, 0 if said == OK else 1)]
        # in threads only if it comes to the same in whatever order they run
        serial = [] if examples.ends_alike(folder) else ["--serial"]
        ways = {" --serial": ["--serial"], " --trace": [*serial, "--trace", NOWHERE], " --store": ["--serial", "--store", STORES]}
        ways |= {} if serial else {"": []}
        ran = (folder / "ran").read_bytes()
        cases = [Case(folder.name + name, [self.program, "run", *options, file], ran) for name, options in ways.items()]
        return [*cases, Case(f"{folder.name} check", [self.program, "check", file], OK)]

    def cases_of_trace(self, folder):
        told, words = (folder / "told").read_bytes(), [self.program, "trace", *examples.explained(folder), folder / "trace"]
        name, status = f"traces/{folder.name}", examples.status_of_trace(told)
        return [Case(name, words, told, status), Case(f"{name} --picture", [*words, "--picture", NOWHERE], told, status)]

    def cases_of_steps(self, folder):
        files, answers, status = [folder / "setup.json", folder / "steps"], examples.answers_of(folder), examples.status_of(folder)
        explaining = [self.program, "steps", *examples.explained(folder), *files]
        cases = [Case(folder.name, explaining, (folder / "answers").read_bytes(), status)]
        if folder not in examples.two_phases():
            return cases
        stored = [self.program, "steps", "--store", STORES, *files]
        again = [self.program, "steps", "--store", STORES, "--reopen", files[0], "-"]
        began = b"began %d\n" % examples.next_top((folder / "steps").read_text().splitlines(), answers.decode().splitlines())
        drawn = [self.program, "steps", "--picture", NOWHERE, *files]
        cases += [Case(f"{folder.name} --store", stored, answers, status), Case(f"{folder.name} --picture", drawn, answers, status)]
        return [*cases, Case(f"{folder.name} --reopen", again, began, given=b"top 1\n", before=stored)]

    def is_ample(self, case, whole):
        return (whole.status, whole.printed, whole.said) == (case.status, case.printed, "")

    def is_same(self, run, whole):
        return (run.status, run.printed, run.said) == (whole.status, whole.printed, whole.said)

    def tells(self, case, run, whole, kind=refusing):
        told = failing_calls.WORDS if kind is failing_calls else ("fault memory\n",)
        told += ("fault store\n",) if STORES in case.words else ()
        return run.met and run.status == 2 and run.said in told and whole.printed.startswith(run.printed)


# ---- at random


class Counted(NamedTuple):
    """How a case ends if nothing is refused, and how much can be refused."""

    refuser: Refuser
    whole: Run
    count: int


class Refusals:
    """The cases of argus by their names, of which allocations or calls are refused."""

    def __init__(self, program, library, kind):
        self.argus, self.library, self.kind = Argus(program), library, kind
        self.cases = {case.name: case for case in self.argus.cases()}
        self.known = {}

    def can_refuse(self):
        return Refuser(self.library, self.kind).run(Case("help", [self.argus.program, "--help"]), 1).met

    def counted(self, name):
        if name not in self.known:
            case, refuser = self.cases[name], Refuser(self.library, self.kind)
            self.known[name] = Counted(refuser, refuser.run(case, 0), refuser.refusals(case))
        return self.known[name]

    def refused(self, name, share):
        """What is wrong where the one at this share of all is refused, or nothing."""
        case, (refuser, whole, count) = self.cases[name], self.counted(name)
        if not self.argus.is_ample(case, whole):
            return f"it is wrong if nothing is refused: {whole}"
        if not count:
            return "nothing can be refused"
        number = 1 + int(share * count)
        run = refuser.run(case, number)
        is_right = self.argus.tells(case, run, whole, self.kind) or self.argus.is_same(run, whole)
        return None if is_right else f"number {number} of {count}: {run}"

    def in_parts(self, name):
        """What is wrong where calls move a byte at most, or nothing."""
        case = self.cases[name]
        run = Refuser(self.library, self.kind).run_in(case, self.kind.in_parts(self.library, MOST))
        return None if self.argus.is_ample(case, run) else f"{run}; wanted status {case.status}, {case.printed}"


def memory(given):
    chosen = random.Random(given.seed)
    with refusing.library() as library:
        state = Refusals(given.program, library, refusing)
        if not state.can_refuse():
            raise soaking.Skipped("since the program does not ask the C library for its memory")
        for number in itertools.count(1):
            name, share = chosen.choice(list(state.cases)), chosen.random()
            yield f"{number}: {name}, an allocation is refused", state.refused, name, share


def calls(given):
    """In each fourth trial all calls move a byte at most, until this was so of each case without stores, and so on."""
    chosen = random.Random(given.seed)
    with failing_calls.library() as library:
        state = Refusals(given.program, library, failing_calls)
        names = list(state.cases)
        without = [name for name, case in state.cases.items() if STORES not in case.words]
        others = itertools.cycle(chosen.sample(without, len(without)))
        for number in itertools.count(1):
            if number % 4 == 0:
                name = next(others)
                yield f"{number}: {name}, a call moves a byte at most", state.in_parts, name
            else:
                name, share = chosen.choice(names), chosen.random()
                yield f"{number}: {name}, a call fails", state.refused, name, share
