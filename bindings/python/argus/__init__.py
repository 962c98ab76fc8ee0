"""argus for Python: a world of guardians, in memory or over a folder of files, by the shared library libargus.so.

ARGUS_LIBRARY says where the library lies; else it is looked for beside this file."""
import ctypes
import os
import pathlib
import threading
from dataclasses import dataclass

from .library import (
    DONE, LIBRARY, NUMBER, STEPS, Bad, Closed, Error, Handle, NotOurs, OutOfMemory, StoreFailed, checked, crossing, text,
)

__all__ = ["Answer", "Bad", "Closed", "Error", "NotOurs", "OutOfMemory", "StoreFailed", "World"]


@dataclass(frozen=True)
class Answer:
    """An answer's line: its first word says which it is, and the others belong to it."""
    line: str

    @property
    def kind(self):
        return self.line.split(" ")[0]

    @property
    def words(self):
        return self.line.split(" ")[1:]


def _replace(path, text):
    """Puts the text in place of the file: a stop leaves the old file or the new one."""
    made = path.with_name(path.name + ".new")
    with made.open("wb") as file:
        file.write(text)
        file.flush()
        os.fsync(file.fileno())
    made.replace(path)
    folder = os.open(path.parent, os.O_RDONLY)
    try:
        os.fsync(folder)
    finally:
        os.close(folder)


class World:
    """New guardians of a setup. A `with` closes it. It stays on the thread that opened it.

    With `over` and `reopen` the store of guardian N is the file gN.json of a folder, which one world at a time has. An
    answer is given once the files hold what it says. If a file can not be written, the world is closed: reopen it.

    It has a method for each kind of step, which gives the answer: `step(line)`, `top(guardian)`, `call(action, guardian)`,
    `op(action, guardian, number, wanted)`, `prepare(guardian, top)`, `tell(guardian, action)`, `crash(guardian)`,
    `recover(guardian)`, and `nest`, `commit`, `abort`, `close_top` and `decide` of an action."""

    def __init__(self, setup):
        self._opened("open", [setup], None)

    def _opened(self, call, words, folder):
        self._handle, self._thread, self._folder = Handle(), threading.get_ident(), folder
        checked(getattr(LIBRARY, f"argus_c_{call}")(self._handle, *crossing(words)))
        self._keep()
        return self

    @classmethod
    def over(cls, folder, setup):
        """New guardians, over a folder that has no stores yet."""
        folder = pathlib.Path(folder)
        if (folder / "g1.json").exists():
            raise FileExistsError(f"{folder} has stores")
        return cls.__new__(cls)._opened("open", [setup], folder)

    @classmethod
    def reopen(cls, folder, setup):
        """The guardians of the setup, going on from the stores of the folder. What was prepared is settled."""
        folder, stores = pathlib.Path(folder), []
        while (path := folder / f"g{len(stores) + 1}.json").exists():
            stores.append(path.read_bytes())
        return cls.__new__(cls)._opened("reopen", [setup, b"[" + b",".join(stores) + b"]"], folder)

    def _keep(self):
        """Writes each store that may have changed."""
        guardian = NUMBER()
        try:
            while self._folder and LIBRARY.argus_c_changed(self._handle, ctypes.byref(guardian)) == DONE:
                told = text(LIBRARY.argus_c_store, self._handle, guardian)
                _replace(self._folder / f"g{guardian.value}.json", told.encode())
                checked(LIBRARY.argus_c_kept(self._handle, guardian))
        except BaseException:
            self.close()
            raise

    def _here(self):
        if threading.get_ident() != self._thread:
            raise RuntimeError("a world stays on the thread that opened it")
        return self._handle

    def _make(self, name, words):
        checked(getattr(LIBRARY, f"argus_c_{name}")(self._here(), *crossing(words)))
        self._keep()
        return Answer(text(LIBRARY.argus_c_answer, self._handle))

    def base(self, guardian, number):
        """The base of an object as JSON; None if there is no such object."""
        return text(LIBRARY.argus_c_base, self._here(), *crossing([guardian, number]))

    def close(self):
        """Ends the world. A second time it does nothing."""
        LIBRARY.argus_c_close(self._here())

    def __enter__(self):
        return self

    def __exit__(self, *_):
        self.close()

    def __del__(self):
        if threading.get_ident() == self._thread:
            self.close()


for _name in STEPS:
    setattr(World, _name, lambda self, *words, _name=_name: self._make(_name, words))
