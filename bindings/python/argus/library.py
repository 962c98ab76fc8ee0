"""The library libargus.so: its calls, its codes, and the exceptions that stand for them."""
import ctypes
import os

DONE, BAD, NOTHING, MEMORY, SMALL, CLOSED, OPEN, STORE, NOT_OURS = range(9)
NUMBER = ctypes.c_uint32
BYTES = (ctypes.c_char_p, ctypes.c_size_t)
PLACE = (*BYTES, ctypes.POINTER(ctypes.c_size_t))


class Error(Exception):
    """A call was not made, and nothing happened; `code` is the library's."""

    def __init__(self, code, text):
        super().__init__(text)
        self.code = code


class Bad(Error, ValueError):
    """The bytes are no setup, no stores, no step or no action's name."""


class Closed(Error):
    """The world is closed."""


class StoreFailed(Error):
    """The store of a guardian failed."""


class NotOurs(Error):
    """The stores are not those of this setup."""


class OutOfMemory(Error, MemoryError):
    """There is no memory."""


class Handle(ctypes.Structure):
    _fields_ = [("mark", NUMBER), ("error", NUMBER), ("seat", ctypes.c_void_p)]


# The calls that make a step, each with its arguments.
STEPS = {
    "step": BYTES, "top": (NUMBER,), "nest": BYTES, "call": (*BYTES, NUMBER), "commit": BYTES, "abort": BYTES,
    "op": (*BYTES, NUMBER, NUMBER, *BYTES), "close_top": BYTES, "prepare": (NUMBER, *BYTES), "decide": BYTES,
    "tell": (NUMBER, *BYTES), "crash": (NUMBER,), "recover": (NUMBER,),
}
CALLS = {
    **STEPS, "open": BYTES, "reopen": (*BYTES, *BYTES), "answer": PLACE, "base": (NUMBER, NUMBER, *PLACE),
    "changed": (ctypes.POINTER(NUMBER),), "store": (NUMBER, *PLACE), "kept": (NUMBER,), "close": (),
}
FAULTS = {BAD: Bad, MEMORY: OutOfMemory, CLOSED: Closed, STORE: StoreFailed, NOT_OURS: NotOurs}


def load():
    beside = os.path.join(os.path.dirname(os.path.abspath(__file__)), "libargus.so")
    library = ctypes.CDLL(os.environ.get("ARGUS_LIBRARY") or beside)
    for name, kinds in CALLS.items():
        function = getattr(library, f"argus_c_{name}")
        function.argtypes, function.restype = (ctypes.POINTER(Handle), *kinds), NUMBER
    library.argus_c_text.argtypes, library.argus_c_text.restype = (NUMBER, *PLACE), NUMBER
    return library


LIBRARY = load()


def text(call, *words):
    """The text that the call writes, into a place that is large enough; None if there is nothing to tell."""
    room = 256
    while True:
        place, length = ctypes.create_string_buffer(room), ctypes.c_size_t()
        code = call(*words, place, room, ctypes.byref(length))
        if code == DONE:
            return place.raw[: length.value].decode()
        if code != SMALL:
            return checked(code)
        room = length.value


def checked(code):
    if code not in (DONE, NOTHING):
        raise FAULTS.get(code, Error)(code, text(LIBRARY.argus_c_text, code))


def crossing(words):
    """The words as the library takes them: numbers of 32 bits, and bytes with their length."""
    for word in words:
        if isinstance(word, int):
            if not 0 <= word < 1 << 32:
                raise Bad(BAD, f"not a number of 32 bits: {word}")
            yield word
        else:
            data = word.encode() if isinstance(word, str) else bytes(word)
            yield from (data, len(data))
