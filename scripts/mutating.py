"""Changes bytes at random, for soak: bits, lines, numbers, the values of a JSON document, the tables of a store."""
import contextlib
import json
import pathlib
import re
import sqlite3
import tempfile

from spellings import split

MOST = 65_536  # bytes of a mutant
NUMBERS = [0, 1, 2, 3, 7, 16, 17, 31, 32, 33, 63, 64, 65, 255, 1_023, 1_024, 1_025, 8_192, 65_536, 65_537, 100_000]
NUMBERS += [2**31, 2**32 - 1, 2**32, 2**62, 2**62 + 1, 2**63 - 1, 2**63, 2**64 - 1, 2**64, 10**30]
SPELLINGS = ["%d", "%d", "%d", "%d", "-%d", "0%d", "+%d", "%d.0", "%de0", "%d.1", "%d.%%d"]
PARTS = [
    b" ", b"  ", b"\n", b"\r\n", b"\0", b"\xff", b"\xc3\xa9", b'"', b"\\u0041", b"\\", b" -> ", b".1", b"/", b"{", b"}",
    b"[", b"]", b",", b":", b"s", b"t",
]  # fmt: skip
VALUES = [
    None, True, 0, 1, -1, 2**63, 1.5, "", "a", "a" * 1_025, "A", [], {}, [[]], {"var": "v"}, {"abort": True},
    {"return": 1},
]  # fmt: skip
NAME = rb"(?<![0-9/])[0-9]+(?:\.[0-9]+)*"
TABLES = {
    "meta": ("k", "v"), "base": ("obj", "val"), "prepared": ("top", "home"), "prepared_val": ("top", "obj", "val"),
    "prepared_delta": ("top", "obj", "add_by"), "decided": ("top",),
}  # fmt: skip
CELLS = [
    None, 0, 1, 2, 3, 7, -1, 1_024, 1_025, 2**32 - 1, 2**32, 2**62, 2**63 - 1, 0.5, b"\0", "", "x", "version", "count",
    "next_top", "{}",
]  # fmt: skip
CELLS += ['{"counter":5}', '{"delta":5}', '{"record":{"balance":1}}', '{"array":{"items":[1],"low":1,"of":"int"}}', "7"]


def number(rng):
    return (rng.choice(SPELLINGS) % rng.choice(NUMBERS)).replace("%d", "1").encode()


def piece(rng, content):
    """A short part of the bytes."""
    begin = rng.randrange(len(content) + 1)
    return begin, begin + rng.choice([0, 1, 1, 2, 4, 8, 16, 64])


# ---- bytes, lines and words


def with_bits(rng, content, other):
    held = bytearray(content or b"\0")
    for _ in range(rng.choice([1, 1, 2, 8])):
        held[rng.randrange(len(held))] ^= 1 << rng.randrange(8)
    return bytes(held)


def with_piece(rng, content, other):
    """A part is another: nothing, what stands elsewhere or in another input, or a byte that is seldom right."""
    begin, end = piece(rng, content)
    source = rng.choice([content, other])
    start, stop = piece(rng, source)
    part = rng.choice([b"", source[start:stop], rng.choice(PARTS), bytes([rng.randrange(256)])])
    return content[:begin] + part + content[end:]


def with_end(rng, content, other):
    """A beginning, and perhaps the end of another input."""
    return content[: rng.randrange(len(content) + 1)] + rng.choice([b"", other[rng.randrange(len(other) + 1) :]])


def with_lines(rng, content, other):
    """A line is left out, comes twice, changes its place, or comes from another input."""
    lines, others = split(content) or [b""], split(other) or [b""]
    place, to = rng.randrange(len(lines)), rng.randrange(len(lines))
    way = rng.randrange(5)
    if way == 0:
        del lines[place]
    elif way == 1:
        lines[place:place] = lines[place : place + rng.choice([1, 1, 2, 4, 16])] * rng.choice([1, 1, 2, 100])
    elif way == 2:
        lines.insert(to, lines.pop(place))
    elif way == 3:
        lines[place] = rng.choice(others)
    else:
        lines.insert(place, rng.choice(others))
    return b"".join(lines)


def with_match(rng, pattern, content, made):
    """One match of the pattern is replaced."""
    found = list(re.finditer(pattern, content))
    if not found:
        return content
    match = rng.choice(found)
    return content[: match.start()] + made(match) + content[match.end() :]


def with_number(rng, content, other):
    near = lambda match: b"%d" % (int(match[0]) + rng.choice([-2, -1, 1, 2]))
    return with_match(rng, rb"[0-9]{1,20}", content, rng.choice([near, near, lambda match: number(rng)]))


def with_word(rng, content, other):
    words = re.findall(rb"[a-z_]+", other) or [b"x"]
    return with_match(rng, rb"[a-z_]+", content, lambda match: rng.choice(words))


def with_name(rng, content, other):
    """The name of an action is another."""
    names = re.findall(NAME, content + b" " + other) or [b"1"]
    longer = lambda match: match[0] + b".1" * rng.choice([1, 1, 31])
    return with_match(rng, NAME, content, rng.choice([lambda match: rng.choice(names), longer]))


# ---- JSON documents


def places(document):
    """The lists and objects of a document, each with its keys."""
    if isinstance(document, (list, dict)):
        keys = list(document) if isinstance(document, dict) else list(range(len(document)))
        if keys:
            yield document, keys
        for key in keys:
            yield from places(document[key])


def with_value(rng, content, other):
    """A value of the document is another, is left out, or comes twice. The bytes stay if they are no document."""
    try:
        document, source = json.loads(content), json.loads(other)
        found = list(places(document))
        inner, keys = rng.choice(found)
        values = [holder[key] for holder, known in [*found, *places(source)] for key in known]
        key = rng.choice(keys)
        way = rng.randrange(4)
        if way == 0:
            del inner[key]
        elif way == 1 and isinstance(inner, list):
            inner[key:key] = [inner[key]] * rng.choice([1, 1, 2, 64])
        elif way == 2 and isinstance(inner, dict):
            inner[rng.choice(["a", "signals", "into", "body", "a" * 33])] = rng.choice(values)
        else:
            inner[key] = rng.choice(values + VALUES)
        return json.dumps(document).encode()
    except (ValueError, IndexError, RecursionError):
        return content


# ---- tables


def statement(rng):
    """A random change of a store's tables, and its values."""
    table = rng.choice(list(TABLES))
    columns = TABLES[table]
    way = rng.randrange(4)
    if way == 0:
        return f"DELETE FROM {table} WHERE rowid % 3 = {rng.randrange(3)}", ()
    if way == 1:
        return f"INSERT INTO {table} VALUES ({', '.join('?' * len(columns))})", [rng.choice(CELLS) for _ in columns]
    if way == 2:
        tables = [f"DROP TABLE {table}", f"ALTER TABLE {table} ADD COLUMN x", f"CREATE TABLE t{rng.randrange(9)}(x)"]
        return rng.choice(tables), ()
    return f"UPDATE {table} SET {rng.choice(columns)} = ?", [rng.choice(CELLS)]


def with_rows(rng, content, other):
    """The bytes stay if they are no database, or if the change cannot be made."""
    made = statement(rng)
    with tempfile.TemporaryDirectory() as folder:
        file = pathlib.Path(folder, "store.db")
        file.write_bytes(content)
        try:
            with contextlib.closing(sqlite3.connect(file, timeout=0.1)) as store, store:
                store.execute(*made)
        except (sqlite3.Error, OverflowError, UnicodeDecodeError):  # the last where an error names a spoilt table
            return content
        return file.read_bytes()


TEXT = [
    with_bits, with_piece, with_piece, with_end, with_lines, with_lines, with_lines, with_number, with_number, with_word,
    with_name, with_name,
]  # fmt: skip
JSON = [
    with_bits, with_piece, with_piece, with_number, with_number, with_word, with_value, with_value, with_value,
    with_value,
]  # fmt: skip
STORE = [with_bits, with_bits, with_piece, with_rows, with_rows, with_rows, with_rows]


def mutated(rng, ways, content, other):
    """The bytes after some changes; other bytes are those of another input."""
    for _ in range(rng.choice([1, 1, 1, 2, 2, 3, 5])):
        content = rng.choice(ways)(rng, content, other)[:MOST]
    return content
