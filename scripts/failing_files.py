"""The sections of soak for mistakes in the command line, and for readers and writers that fail at each byte."""
import os
import pathlib
import shutil
import signal
import subprocess
import tempfile

from examples import (
    EXAMPLES, answers_of, explained, said_of, script_folders, status_of, status_of_trace, step_folders, trace_folders,
)  # fmt: skip
from soaking import Came, Skipped, compared, run, seconds

FULL = Came(2, b"", b"fault output\n")
NO_INPUT = Came(2, b"", b"fault input\n")


def written(program, words, most, to=None):
    """What a run leaves of a file of so many bytes at most: of standard output, or of the file `to`."""
    with tempfile.TemporaryDirectory() as folder:
        out = pathlib.Path(folder, "out")
        with out.open("wb") as output:
            words = ["prlimit", f"--fsize={most}:{most}", program, *words, *([to, out] if to else [])]
            # A write beyond the limit fails, as Python leaves its signal ignored.
            how = {"stdout": subprocess.PIPE if to else output, "stderr": subprocess.PIPE, "restore_signals": False}
            done = subprocess.run(words, timeout=seconds(), **how)
        return Came(done.returncode, done.stdout or b"", done.stderr), out.read_bytes()


def limited(program, words, most, to, whole, ends, answers):
    """What is wrong where a file has room for so many bytes, or nothing. With room for the whole, the run ends so."""
    wanted = (ends if most == len(whole) else FULL._replace(written=answers)), whole[:most]
    return compared(written(program, words, most, to), wanted)


def each_room(name, program, words, whole, ends=Came(0, b"", b""), to=None, answers=b""):
    """Trials of a run whose file has room for no byte, for one, and so on. The answers come before the file is written."""
    for most in range(len(whole) + 1):
        of = f"{name}: {to or 'standard output'} of {most} bytes"
        yield of, limited, program, words, most, to, whole, ends, answers


def writers(program):
    for folder in step_folders()[::4] + [EXAMPLES / "prepared-read-lock-lost", EXAMPLES / "transfer"]:
        steps = ["steps", *explained(folder), folder / "setup.json", folder / "steps"]
        ends = Came(status_of(folder), b"", b"")
        yield from each_room(folder.name, program, steps, (folder / "answers").read_bytes(), ends)
    for folder in trace_folders():
        told = (folder / "told").read_bytes()
        ends = Came(status_of_trace(told), b"", b"")
        yield from each_room(folder.name, program, ["trace", *explained(folder), folder / "trace"], told, ends)
    for folder in script_folders():
        script, said = folder / "script.json", said_of(folder)
        ends = Came(0 if said == b"ok\n" else 1, b"", b"")
        yield from each_room(folder.name, program, ["check", script], said, ends)
        if (folder / "ran").exists():
            yield from each_room(folder.name, program, ["run", "--serial", script], (folder / "ran").read_bytes())
    yield from other_files(program)


def other_files(program):
    drawn, script = EXAMPLES / "coordinator-crashes", EXAMPLES / "scripts/take"
    answers, picture = (drawn / "answers").read_bytes(), (EXAMPLES.parent / "docs/picture.svg").read_bytes()
    steps, came = ["steps", drawn / "setup.json", drawn / "steps"], Came(0, answers, b"")
    yield from each_room(drawn.name, program, steps, picture, came, "--picture", answers)
    trace, came = (EXAMPLES / "traces/take/trace").read_bytes(), Came(0, (script / "ran").read_bytes(), b"")
    yield from each_room(script.name, program, ["run", "--serial", script / "script.json"], trace, came, "--trace")


def byte_by_byte(program, folder):
    """The steps of an example, handed over one byte at a time."""
    words = [program, "steps", folder / "setup.json", "-"]
    pipe = subprocess.PIPE
    with subprocess.Popen(words, stdin=pipe, stdout=pipe, stderr=pipe, bufsize=0) as running:
        for byte in (folder / "steps").read_bytes():
            running.stdin.write(bytes([byte]))
        came = running.communicate(timeout=seconds())
    return compared(Came(running.returncode, *came), Came(status_of(folder), answers_of(folder), b""))


def closed_pipe(program, *words):
    """A reader of standard output that has gone."""
    shell = ["sh", "-c", 'exec 3>&1; { sleep 0.3; "$@" 2>&3; echo "$?" >&3; } | true', "sh", program, *words]
    with subprocess.Popen(shell, stdout=subprocess.PIPE, start_new_session=True) as running:
        try:
            written, _ = running.communicate(timeout=seconds())
        except subprocess.TimeoutExpired:
            os.killpg(running.pid, signal.SIGKILL)  # the program too, which the shell began
            raise
    return compared(written, b"fault output\n2\n")


def ends_so(program, wanted, *words):
    return compared(run(program, *words), wanted)


def readers(program):
    transfer, script = EXAMPLES / "transfer", EXAMPLES / "scripts/take/script.json"
    setup, steps = transfer / "setup.json", transfer / "steps"
    for file in EXAMPLES, EXAMPLES / "nothing", setup / "nothing":
        alone = [[*words, file] for words in (["check"], ["run"], ["run", "--serial"], ["trace"])]
        for words in [["steps", file, steps], ["steps", setup, file], *alone]:
            yield f"{words[0]}: {file.name} is to be read", ends_so, program, NO_INPUT, *words
    drawn = FULL._replace(written=(transfer / "answers").read_bytes())
    for out in EXAMPLES, EXAMPLES / "nothing/out", "/dev/full":
        yield f"steps: {out} is to be drawn", ends_so, program, drawn, "steps", "--picture", out, setup, steps
        yield f"run: {out} is to be written", ends_so, program, FULL, "run", "--trace", out, script


def devices(given):
    if not shutil.which("prlimit"):
        raise Skipped("since there is no prlimit")
    yield from readers(given.program)
    for folder in step_folders():
        yield f"{folder.name}: byte by byte", byte_by_byte, given.program, folder
    transfer = EXAMPLES / "transfer"
    yield "steps: a closed pipe", closed_pipe, given.program, "steps", transfer / "setup.json", transfer / "steps"
    yield "check: a closed pipe", closed_pipe, given.program, "check", EXAMPLES / "scripts/take/script.json"
    yield from writers(given.program)


# ---- the command line

TRANSFER, TAKE = EXAMPLES / "transfer", EXAMPLES / "scripts/take/script.json"
STEPS = [TRANSFER / "setup.json", TRANSFER / "steps"]
MISTAKES = [
    [], ["x"], ["Steps", *STEPS], ["steps"], ["steps", STEPS[0]], ["steps", *STEPS, "x"], ["steps", "--x", *STEPS],
    ["steps", *STEPS, "--store"], ["steps", *STEPS, "--explain"], ["steps", *STEPS, "--picture"], ["steps", "--serial", *STEPS],
    ["steps", "--from", "x", *STEPS], ["steps", "--to", str(2**64), *STEPS], ["steps", "--from", "1.5", *STEPS],
    ["steps", "--from", "0", *STEPS], ["steps", "--to", "0", *STEPS], ["check"],
    ["check", TAKE, TAKE], ["run"], ["run", TAKE, "--seconds"], ["run", "--reopen", TAKE], ["run", "--serial=1", TAKE], ["trace"],
    ["trace", "--store", TAKE, TAKE], [b"\xff"], ["steps", b"\xff", STEPS[1]], ["check", b"\xff"], ["x" * 100_000],
]  # fmt: skip
ASKED = [["--help"], ["--version"], ["steps", "--help"], ["check", "--help"], ["run", "--help"], ["trace", "--help"]]
NO_STORE, FAILED = Came(1, b"error store\n", b""), Came(2, b"", b"fault store\n")
ANSWERED = [
    *((["run", "--seconds", word, TAKE], Came(1, b"error seconds\n", b"")) for word in ("0", str(2**32), "x", "1.5", " 1", "")),
    (["run", "--serial", "--seconds", "5", TAKE], Came(1, b"error seconds\n", b"")),
    (["steps", "--reopen", *STEPS], NO_STORE),
    (["steps", "--reopen", "--store", EXAMPLES / "nothing", *STEPS], NO_STORE),
    (["steps", "--store", EXAMPLES / "nothing", *STEPS], FAILED),
    (["run", "--store", EXAMPLES / "nothing", TAKE], FAILED),
]


def is_mistake(program, *words):
    came = run(program, *words)
    return None if came.status == 2 and came.fault and not came.written else f"{came}; wanted status 2, and why"


def is_told(program, *words):
    came = run(program, *words)
    return None if came.status == 0 and came.written and not came.fault else f"{came}; wanted status 0, and a text"


def words(given):
    for trial, lines in (is_mistake, MISTAKES), (is_told, ASKED):
        for line in lines:
            yield f"{' '.join(map(str, line))[:200]}", trial, given.program, *line
    for line, wanted in ANSWERED:
        yield f"{' '.join(map(str, line))}", ends_so, given.program, wanted, *line
