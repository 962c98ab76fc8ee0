"""What the sections of soak share: how they run the built program."""
import subprocess
import sys
import tempfile
from typing import NamedTuple

sys.dont_write_bytecode = True

AT_ONCE = 4
BATCH = 8 * AT_ONCE  # trials that are begun before the time is looked at
NEW_ACTION = b"top 1\n"


class Limit:
    """How long one run may take."""

    seconds = 20


def seconds():
    return Limit.seconds


class Skipped(Exception):
    """Why a section cannot be tried here."""


class Given(NamedTuple):
    """What a section is given. It yields trials: a name, a call, and the call's words. The call says what is wrong."""

    program: str
    seed: int
    kind: str | None = None  # what section fuzz changes, if it is one kind alone


class Came(NamedTuple):
    """What a run wrote and ended with. The status is less than 0 if a signal stopped it."""

    status: int
    written: bytes
    fault: bytes

    def __str__(self):
        return f"status {self.status}, {self.written[-200:]!r}, {self.fault[-200:]!r}"


def run(program, *words, given=b"", **how):
    done = subprocess.run([program, *words], input=given, capture_output=True, timeout=seconds(), **how)
    return Came(done.returncode, done.stdout, done.stderr)


def compared(came, wanted):
    """What is wrong in a run, or nothing."""
    return None if came == wanted else f"{came}; wanted {wanted}"


def tried(trial):
    """What is wrong in a trial, or nothing."""
    _, call, *words = trial
    try:
        return call(*words)
    except subprocess.TimeoutExpired:
        return f"it ran for {seconds()} seconds"
    except Exception as error:  # what came could not be read
        return f"{type(error).__name__}: {error}"


def with_file(content, use):
    """What is made of the name of a file that has these bytes."""
    with tempfile.NamedTemporaryFile() as file:
        file.write(content)
        file.flush()
        return use(file.name)
