"""The folders of examples/: which there are, and what the program must say of each."""
import json
import pathlib

EXAMPLES = pathlib.Path(__file__).resolve().parent.parent / "examples"
ALIKE = "eight-clients"  # clients that end alike in any order


# ---- steps


def step_folders():
    return sorted(file.parent for file in EXAMPLES.glob("*/steps"))


def two_phases():
    """The examples in which a guardian is asked for its vote."""
    return [folder for folder in step_folders() if b"\nprepare " in (folder / "steps").read_bytes()]


def explained(folder):
    """The option by which an action of the example is explained, if one is."""
    file = folder / "explain"
    return ["--explain", file.read_text().strip()] if file.exists() else []


def answers_of(folder):
    """The answers to the steps of an example, without what is explained behind them."""
    steps = (folder / "steps").read_bytes().splitlines()
    return b"".join((folder / "answers").read_bytes().splitlines(keepends=True)[: len(steps)])


def status_of(folder):
    file = folder / "status"
    return int(file.read_text()) if file.exists() else 0


def next_top(steps, answers):
    """The number of the next top action of a system that is opened again: that behind the greatest with a yes vote."""
    votes = (step.split()[2] for step, answer in zip(steps, answers) if answer == "vote yes")
    return max(map(int, votes), default=0) + 1


# ---- scripts and traces


def script_folders():
    return sorted(file.parent for file in EXAMPLES.glob("scripts/*/script.json"))


def said_of(folder):
    """What is said of the script of an example."""
    file = folder / "said"
    return file.read_bytes() if file.exists() else b"ok\n"


def ends_alike(folder):
    """Whether the script of an example comes to the same in whatever order its threads run."""
    document = (folder / "script.json").read_text()
    return folder.name == ALIKE or len(json.loads(document)["clients"]) == 1 and '"coenter"' not in document


def trace_folders():
    return sorted(file.parent for file in EXAMPLES.glob("traces/*/trace"))


def status_of_trace(told):
    return 0 if told.startswith(b"yes ") else 1
