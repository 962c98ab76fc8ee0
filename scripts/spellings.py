"""Which bytes are steps, answers, lines of a trace, and setups: a plain reading of docs/PROGRAM.md and docs/SCRIPTS.md."""
import json
import re
from typing import NamedTuple

MOST_BYTES = 8_192  # of a step
MOST_NUMBERS = 32  # of a name
MOST_TEXT = 1_024
MOST_GUARDIANS = MOST_OBJECTS = 1_024
MOST_FIELDS = 64
MOST_ITEMS = 65_536
MOST_INDEX = 2**62
LEVELS = 128  # of JSON, which are too many
LONG = 40  # digits of a number that is out of 64 bits

ARROW = b" -> "
IDENTIFIER = re.compile(rb"[a-z][a-z0-9_]{0,31}")

# The arguments of each operation: a name, an index, a value.
OPERATIONS = {
    b"get": "n", b"set": "nv", b"low": "", b"high": "", b"size": "", b"fetch": "i", b"store": "iv", b"addh": "v", b"addl": "v",
    b"remh": "", b"reml": "", b"is": "n", b"value": "n", b"change": "nv", b"total": "", b"put": "v", b"add": "v",
}  # fmt: skip
# What follows the word of a step: a name of an action, or the number of a guardian.
STEPS = {
    b"top": "g", b"nest": "a", b"call": "ag", b"commit": "a", b"abort": "a", b"close": "a", b"prepare": "ga", b"decide": "a",
    b"tell": "ga", b"crash": "g", b"recover": "g",
}  # fmt: skip


# ---- numbers, names, values


def is_natural(word, most):
    """Whether the word is a number from 1, in decimal digits without zeros in front."""
    return re.fullmatch(rb"[1-9][0-9]{0,19}", word) is not None and int(word) <= most


def is_number(word):
    return is_natural(word, 2**32 - 1)


def is_name(word):
    numbers = word.split(b".")
    return len(numbers) <= MOST_NUMBERS and all(map(is_number, numbers))


def is_int(word):
    return re.fullmatch(rb"0|-?[1-9][0-9]{0,18}", word) is not None and -(2**63) <= int(word) < 2**63


def is_text(word):
    """Whether the word is a JSON string that escapes only the characters that it must."""
    try:
        spelled = word.decode()
        text = json.loads(spelled)
    except ValueError:
        return False
    return isinstance(text, str) and json.dumps(text, ensure_ascii=False) == spelled and len(text.encode()) <= MOST_TEXT


def is_value(word):
    return is_text(word) if word.startswith(b'"') else is_int(word)


# ---- steps and answers


def is_operation(text):
    word, _, rest = text.partition(b" ")
    form = OPERATIONS.get(word)
    if not form:
        return form == "" and text == word
    fits = {"n": lambda it: IDENTIFIER.fullmatch(it) is not None, "i": is_int, "v": is_value}
    arguments = rest.split(b" ", len(form) - 1)
    return len(arguments) == len(form) and all(fits[kind](argument) for kind, argument in zip(form, arguments))


def is_step(line):
    if len(line) > MOST_BYTES:
        return False
    word, *words = line.split(b" ")
    if word == b"op":
        _, *parts = line.split(b" ", 3)
        place = parts[1].split(b"/") if len(parts) == 3 else []
        return len(place) == 2 and is_name(parts[0]) and all(map(is_number, place)) and is_operation(parts[2])
    if word == b"arms":
        return bool(words) and is_name(words[0]) and all(kind in (b"s", b"t") for kind in words[1:])
    form = STEPS.get(word, "")
    return len(form) == len(words) > 0 and all((is_name if kind == "a" else is_number)(it) for kind, it in zip(form, words))


def is_reply(text):
    return text in (b"true", b"false", b"done", b"signals bounds", b"signals limit", b"signals wrong_tag") or is_value(text)


def is_answer(line):
    word, _, rest = line.partition(b" ")
    if word in (b"began", b"waits"):
        return all(map(is_name, rest.split(b" ")))
    if word == b"granted":
        return is_reply(rest)
    if word == b"done":
        return rest == b"0" or is_natural(rest, 2**64 - 1)
    return line in (b"vote yes", b"vote no") or word == b"refused" and is_natural(rest, 19)


# ---- traces


class Line(NamedTuple):
    """A line of a trace. The registry's history has the number 0."""

    history: int
    stamp: int
    step: bytes
    answer: bytes


def owner_of(word):
    """The number of a history, or none."""
    return 0 if word == b"r" else int(word) if is_natural(word, MOST_GUARDIANS) else None


def trace_line(text):
    """The line of a trace that the text spells, or none."""
    words = text.split(b" ", 2)
    if len(words) < 3 or owner_of(words[0]) is None or not is_natural(words[1], 2**64 - 1):
        return None
    parts = words[2].split(ARROW)
    for place in range(1, len(parts)):
        step, answer = ARROW.join(parts[:place]), ARROW.join(parts[place:])
        if is_step(step) and is_answer(answer) and not answer.startswith((b"waits ", b"refused ")):
            return Line(owner_of(words[0]), int(words[1]), step, answer)
    return None


def read_trace(given):
    """The lines of a trace, or what must be said of bytes that are none."""
    first, feed, rest = given.partition(b"\n")
    if not feed or not first.startswith(b"setup ") or not is_setup(first.removeprefix(b"setup "), is_stored=True):
        return "error setup"
    lines = []
    for number, text in enumerate(split(rest), 2):
        line = trace_line(text[:-1]) if text.endswith(b"\n") else None
        if line is None or lines and line.history < lines[-1].history:
            return f"error {number}"
        lines.append(line)
    return lines


def split(text):
    """The lines of bytes, each with its line feed, if it has one."""
    return re.findall(rb"[^\n]*\n|[^\n]+\Z", text)


# ---- setups


def depth_of(text):
    """How deep brackets nest, outside strings."""
    deepest = depth = 0
    for mark in re.findall(r'"(?:[^"\\]|\\.)*"?|[\[\]{}]', text, re.DOTALL):
        depth += (mark in "[{") - (mark in "]}")
        deepest = max(deepest, depth)
    return deepest


def no_constant(word):
    raise ValueError(word)


def read_json(given):
    """The document of the bytes; a number that is no int of 64 bits is a float. It fails if they are no JSON."""
    text = given.decode()
    if depth_of(text) >= LEVELS or text.startswith("\ufeff"):
        raise ValueError("no JSON")
    whole = lambda word: int(word) if is_int(word.encode()) else 0.5
    document = json.loads(text, parse_int=whole, parse_float=lambda word: 0.5, parse_constant=no_constant)
    json.dumps(document, ensure_ascii=False).encode()  # half a pair of surrogates is none
    return document


def has_kind(value, kind):
    """Whether the value is one of the kind, within the limits."""
    if kind == "text":
        return isinstance(value, str) and len(value.encode()) <= MOST_TEXT
    return type(value) is int


def is_of_a_kind(value):
    return has_kind(value, "int") or has_kind(value, "text")


def is_map(value, fits):
    """Whether the value is an object of 1 to 64 members with such names, and with such values."""
    if not isinstance(value, dict) or not 1 <= len(value) <= MOST_FIELDS:
        return False
    return all(IDENTIFIER.fullmatch(name.encode()) and fits(it) for name, it in value.items())


def is_array(array, is_stored):
    if not isinstance(array, dict) or set(array) != {"of", "low", "items"} or array["of"] not in ("int", "text"):
        return False
    low, items = array["low"], array["items"]
    if type(low) is not int or not isinstance(items, list) or len(items) > MOST_ITEMS:
        return False
    greatest = MOST_INDEX + (is_stored and not items)
    are_within = -MOST_INDEX <= low <= greatest and low + len(items) - 1 <= MOST_INDEX
    return are_within and all(has_kind(it, array["of"]) for it in items)


def is_variant(variant):
    if not isinstance(variant, dict) or set(variant) != {"tags", "tag", "value"}:
        return False
    tags, tag = variant["tags"], variant["tag"]
    if not is_map(tags, lambda it: it in ("int", "text")) or not isinstance(tag, str):
        return False
    return tag in tags and has_kind(variant["value"], tags[tag])


def is_content(content, is_stored):
    if not isinstance(content, dict) or len(content) != 1:
        return False
    [(kind, held)] = content.items()
    if kind == "record":
        return is_map(held, is_of_a_kind)
    if kind == "array":
        return is_array(held, is_stored)
    return is_variant(held) if kind == "variant" else kind == "counter" and has_kind(held, "int")


def is_setup(given, is_stored=False):
    """Whether the bytes are a setup, or one of a trace, which may hold what a store may hold."""
    try:
        document = read_json(given)
    except (ValueError, RecursionError):
        return False
    guardians = document.get("guardians") if isinstance(document, dict) and len(document) == 1 else None
    if not isinstance(guardians, list) or not 1 <= len(guardians) <= MOST_GUARDIANS:
        return False
    for guardian in guardians:
        objects = guardian.get("objects") if isinstance(guardian, dict) and len(guardian) == 1 else None
        if not isinstance(objects, list) or len(objects) > MOST_OBJECTS:
            return False
        if not all(is_content(content, is_stored) for content in objects):
            return False
    return True
