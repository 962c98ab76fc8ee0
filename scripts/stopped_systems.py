"""Systems over stores in files whose program is stopped, or fails, at a call that changes a file: what they must hold when
they are opened again. It is a module of stop-argus, and has the section of soak that does so at random."""
import contextlib
import functools
import itertools
import json
import pathlib
import random
import shutil
import sqlite3
import sys
import tempfile
from typing import NamedTuple

sys.dont_write_bytecode = True
import stopping
from contents import contents_of
from examples import next_top, script_folders, two_phases
from histories import Event, is_accepted

NOT_OPENED = (1, "error store\n")
MIGRATION = "migration"
STORES = "STORES"  # in the words of a run: a new folder


class Found(NamedTuple):
    """What a system is reopened with: the number of its next top action, and what each object holds."""

    number: int
    contents: dict


class System:
    """A system of guardians that keep their stores in files of a folder."""

    def __init__(self, stopper, program, setup):
        self.stopper, self.program = stopper, program
        self.room = pathlib.Path(tempfile.mkdtemp(dir=stopper.library.parent))
        self.setup, self.probe, self.script = (self.room / name for name in ("setup", "probe", "script"))
        self.setup.write_text(setup)
        self.probe.write_text("top 1\n")
        guardians = [dict(guardian, handlers={}) for guardian in json.loads(setup)["guardians"]]
        self.script.write_text(json.dumps({"guardians": guardians, "clients": [{"home": 1, "body": []}]}))

    def run(self, *words, folder=None, number=0, way=stopping.WAYS[0], given=""):
        """Runs the program on the words; stops it at a call that changes a file of the folder."""
        return self.stopper.run([self.program, *words], folder or self.room, number, way, given)

    def new_folder(self, left=None):
        """A new folder, with the files of another one."""
        folder = pathlib.Path(tempfile.mkdtemp(dir=self.room))
        if left:
            shutil.copytree(left, folder, dirs_exist_ok=True)
        return folder

    @contextlib.contextmanager
    def copy(self, left=None):
        """A new folder, with the files of another one, which does not stay."""
        folder = self.new_folder(left)
        try:
            yield folder
        finally:
            shutil.rmtree(folder)

    def make(self, lines, folder, number=0, way=stopping.WAYS[0]):
        """Makes the steps over new stores in the folder."""
        words = ["steps", "--store", folder, self.setup, "-"]
        return self.run(*words, folder=folder, number=number, way=way, given="".join(lines))

    def open(self, folder, number=0, way=stopping.WAYS[0]):
        """Reopens the system from the folder, and begins a top action."""
        return self.run("steps", "--reopen", "--store", folder, self.setup, self.probe, folder=folder, number=number, way=way)

    def found(self, folder):
        """What it is reopened with from the folder; or what the program says, if it is not opened."""
        opened = self.open(folder)
        if (opened.status, opened.said) != (0, "") or not opened.printed.startswith("began "):
            return opened.status, opened.printed + opened.said
        shown = self.run("run", "--store", folder, self.script)
        end, *bases = shown.printed.splitlines() or [""]
        if (shown.status, shown.said, end) != (0, "", "client 1 committed"):
            return shown.status, shown.printed + shown.said
        held = dict(line.split(" ", 1) for line in bases)
        return Found(int(opened.printed.removeprefix("began ")), {name: json.loads(text) for name, text in held.items()})


def ways_of(call):
    """In which ways a stop may come at the call."""
    return [way for way in stopping.WAYS if way != "half" or call.startswith("write ")]


class Calls(NamedTuple):
    """The calls of a run that change files."""

    whole: list
    made: list  # how many were made until so many of the steps are made
    left: dict  # the files after each step that made one, by its number


def calls_of(system, lines):
    """The calls of the steps, found by running one step more each time."""
    made, left, before = [], {}, []
    for count in range(len(lines) + 1):
        folder = system.new_folder()
        run = system.make(lines[:count], folder)
        if run.status or run.said or run.calls[:len(before)] != before:
            raise ValueError(f"after {count} steps: status {run.status}, {run.said}, other calls than with one step less")
        if count == 0 or run.calls != before:
            left[count] = folder
        before = run.calls
        made.append(len(before))
    return Calls(before, made, left)


# Tables of version 1, and what two guardians hold in them: 7 is decided, 8 is not.
FIRST_TABLES = """
CREATE TABLE meta(k TEXT PRIMARY KEY, v INTEGER NOT NULL);
CREATE TABLE base(obj INTEGER PRIMARY KEY, val TEXT NOT NULL);
CREATE TABLE prepared(top INTEGER PRIMARY KEY, home INTEGER NOT NULL);
CREATE TABLE prepared_val(top INTEGER NOT NULL REFERENCES prepared(top) ON DELETE CASCADE, obj INTEGER NOT NULL,
    val TEXT NOT NULL, PRIMARY KEY(top, obj));
CREATE TABLE decided(top INTEGER PRIMARY KEY);
INSERT INTO meta VALUES ('version', 1), ('count', 3);
"""
FIRST_ROWS = [
    """INSERT INTO base VALUES (1, '{"delta":5}'); INSERT INTO decided VALUES (7);""",
    """INSERT INTO prepared VALUES (7, 1), (8, 1);
    INSERT INTO prepared_val VALUES (7, 1, '{"delta":3}'), (7, 2, '{"record":{"n":9}}'), (8, 2, '{"record":{"n":2}}');""",
]
FIRST_SETUP = '{"guardians":[{"objects":[{"counter":100}]},{"objects":[{"counter":10},{"record":{"n":1}}]}]}'
FIRST_FOUND = Found(9, {"1/1": {"counter": 105}, "2/1": {"counter": 13}, "2/2": {"record": {"n": 9}}})


def promised_after(setup, steps, answers):
    """What a system is to be reopened with after steps that were answered so."""
    events = [event for event in map(Event, steps, answers) if is_accepted(event.answer)]
    return Found(next_top(steps, answers), contents_of(setup, events))


# ---- at random


def first_stores(system):
    """A folder with stores that have tables of version 1."""
    folder = system.new_folder()
    for number, rows in enumerate(FIRST_ROWS, 1):
        with contextlib.closing(sqlite3.connect(folder / f"g{number}.db")) as store:
            store.executescript(FIRST_TABLES + rows)
    return folder


class Example(NamedTuple):
    """A system, its steps, and what it is to be opened with after so many of them."""

    system: System
    lines: list
    answers: str
    promised: list
    calls: Calls


@functools.cache
def example_of(stopper, program, folder):
    setup, steps, answers = ((folder / name).read_text() for name in ("setup.json", "steps", "answers"))
    system, lines = System(stopper, program, setup), steps.splitlines(keepends=True)
    parts = [(steps.splitlines()[:count], answers.splitlines()[:count]) for count in range(len(lines) + 1)]
    promised = [promised_after(json.loads(setup), *part) for part in parts]
    return Example(system, lines, "".join(answers.splitlines(keepends=True)[: len(lines)]), promised, calls_of(system, lines))


@functools.cache
def migration_of(stopper, program):
    system = System(stopper, program, FIRST_SETUP)
    return Example(system, [], "", [FIRST_FOUND], Calls([], [], {0: first_stores(system)}))


def wrong_end(run, way, beginning):
    """What is wrong in how a run ended, or nothing: it was stopped, or a call failed."""
    if way in stopping.WAYS:
        return None if run.is_stopped else f"{run}; wanted a stop"
    is_told = (run.status, run.said) == (2, "fault store\n") and beginning.startswith(run.printed)
    return None if is_told or run.status == 0 and not run.said else f"{run}; wanted 'fault store' or status 0"


def stopped_steps(example, chosen, way):
    """What is wrong where the steps are stopped at a call by chance, or nothing."""
    system, lines, answers, promised, calls = example
    number = chosen.randrange(len(calls.whole)) + 1
    with system.copy() as folder:
        run = system.make(lines, folder, number, way)
        found = system.found(folder)
    made = run.printed.count("\n")
    if run.is_stopped:  # lines may not have been written yet
        made = max(next(count for count, made in enumerate(calls.made) if made >= number) - 1, 0)
    allowed = promised[made : made + 2] + ([] if made else [NOT_OPENED])
    fault = None if found in allowed else f"after {made} steps: {found}; wanted one of {allowed}"
    return (fault := wrong_end(run, way, answers) or fault) and f"call {number}, {calls.whole[number - 1]}: {fault}"


def stopped_opening(example, chosen, way):
    """What is wrong where an opening from what a step left is stopped at a call by chance, or nothing."""
    system, _, _, promised, calls = example
    step = chosen.choice(list(calls.left))
    with system.copy(calls.left[step]) as folder:
        whole = system.open(folder)
    if not whole.calls:
        return f"opened behind step {step}: {whole}; wanted calls that change a file"
    number = chosen.randrange(len(whole.calls)) + 1
    with system.copy(calls.left[step]) as folder:
        run = system.open(folder, number, way)
        found = system.found(folder)
    fault = None if found == promised[step] else f"{found}; wanted {promised[step]}"
    fault = wrong_end(run, way, whole.printed) or fault
    return fault and f"opened behind step {step}, call {number}, {whole.calls[number - 1]}: {fault}"


# ---- scripts over stores


class Saving(NamedTuple):
    """A script over stores: the words that run it and those that show what it left, and what its objects hold."""

    words: list
    idle: list
    calls: list  # that change a file
    printed: str
    first: dict  # by guardian, of each object by its number in text
    last: dict


def by_guardian(held):
    """The contents, by the guardian's number in text."""
    parts = {}
    for name, content in held.items():
        parts.setdefault(name.partition("/")[0], {})[name] = content
    return parts


def bases_in(printed):
    lines = (line.split(" ", 1) for line in printed.splitlines() if not line.startswith("client "))
    return by_guardian({name: json.loads(content) for name, content in lines})


@functools.cache
def saving_of(stopper, program, folder):
    script = json.loads((folder / "script.json").read_text())
    room = pathlib.Path(tempfile.mkdtemp(dir=stopper.library.parent))
    idle, stores, options = room / "idle.json", room / "stores", ["run", "--serial", "--store"]
    stores.mkdir()
    idle.write_text(json.dumps({**script, "clients": [{"home": 1, "body": []}]}))
    setup = {"guardians": [{"objects": guardian["objects"]} for guardian in script["guardians"]]}
    words = [program, *options, STORES, folder / "script.json"]
    whole = stopper.run([stores if word == STORES else word for word in words], stores)
    if (whole.status, whole.printed) != (0, (folder / "ran").read_text()):
        raise ValueError(whole)
    first, last = by_guardian(contents_of(setup, [])), bases_in(whole.printed)
    return Saving(words, [program, *options, STORES, idle], whole.calls, whole.printed, first, last)


def stopped_saving(stopper, saving, chosen, way):
    """What is wrong where a run of a script is stopped at a call by chance, or nothing. Files are saved in their order."""
    number = chosen.randrange(len(saving.calls)) + 1
    with tempfile.TemporaryDirectory(dir=stopper.library.parent) as stores:
        in_stores = lambda words: [stores if word == STORES else word for word in words]
        run = stopper.run(in_stores(saving.words), stores, number, way)
        shown = stopper.run(in_stores(saving.idle), stores)
    fault = wrong_end(run, way, "" if run.status else saving.printed)
    if not fault and (shown.status or shown.said):
        fault = f"{shown}; wanted status 0"
    homes = list(saving.first)
    changes = [{home: saving.last[home] for home in homes[:count]} for count in range(len(homes) + 1)]
    allowed = [saving.first | change for change in changes]
    if not fault and bases_in(shown.printed) not in allowed:
        fault = f"{bases_in(shown.printed)}; wanted one of {allowed}"
    return fault and f"call {number}, {saving.calls[number - 1]}: {fault}"


def stopped(stopper, program, folder, way, seed):
    chosen = random.Random(seed)
    if folder is None:
        return stopped_opening(migration_of(stopper, program), chosen, way)
    if (folder / "script.json").exists():
        return stopped_saving(stopper, saving_of(stopper, program, folder), chosen, way)
    return chosen.choice([stopped_steps, stopped_opening])(example_of(stopper, program, folder), chosen, way)


def stops(given):
    chosen = random.Random(given.seed)
    scripts = [folder for folder in script_folders() if (folder / "ran").exists()]
    folders = [*two_phases(), *scripts, None]
    with stopping.stopper() as stopper:
        for number in itertools.count(1):
            folder, way = chosen.choice(folders), chosen.choice([*stopping.WAYS, *stopping.ERRORS])
            name = folder.name if folder else MIGRATION
            yield f"{number}: {name}, {way}", stopped, stopper, given.program, folder, way, chosen.random()
