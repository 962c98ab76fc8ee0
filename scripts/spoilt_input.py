"""The sections of soak for cut and spoilt steps, setups and scripts, for those at a limit or beyond it, and for pictures."""
import json
import pathlib
import re
import tempfile
from xml.etree import ElementTree

import spellings
from examples import EXAMPLES, script_folders, status_of, step_folders
from soaking import NEW_ACTION, Came, compared, run, with_file

OK = Came(0, b"ok\n", b"")


# ---- cut input


def cut_steps(program, folder, length):
    given = (folder / "steps").read_bytes()[:length]
    answers = (folder / "answers").read_bytes().splitlines(keepends=True)
    whole = given.count(b"\n")
    wanted = Came(0, b"".join(answers[:whole]), b"")
    if whole >= len(answers):
        wanted = Came(status_of(folder), b"".join(answers), b"")
    elif given and not given.endswith(b"\n"):
        wanted = Came(1, wanted.written + b"error %d\n" % (whole + 1), b"")
    return compared(run(program, "steps", folder / "setup.json", "-", given=given), wanted)


def cut_setup(program, file, length):
    return is_no_setup(program, file.read_bytes()[:length])


def cut_script(program, file, length):
    return is_checked(program, file.read_bytes()[:length], Came(1, b"fault 1 /\n", b""))


def cut(given):
    for folder in step_folders():
        for length in range(len((folder / "steps").read_bytes()) + 1):
            yield f"{folder.name}: steps cut after {length} bytes", cut_steps, given.program, folder, length
    files = [(cut_setup, folder / "setup.json") for folder in step_folders()]
    files += [(cut_script, folder / "script.json") for folder in script_folders()]
    for trial, file in files:
        for length in range(len(file.read_bytes().rstrip())):
            yield f"{file.parent.name}: {file.name} cut after {length} bytes", trial, given.program, file, length


# ---- lines that are no step, and steps at a limit

NAME = ".".join(["1"] * 32).encode()
DEEP = NAME + b".1"
LINES = [
    b"", b" ", b"\t", b"\0", b"\xff", b"top", b"TOP 1", b"top 1 ", b" top 1", b"top  1", b"top 1\r", b"top 1\0",
    b"top\t1", b"top 0", b"top 01", b"top -1", b"top +1", b"top 4294967296", b"x" * 8193, b"top 1" + b" " * 8192,
    b"arms 10" + b" s" * 4093, b"call 1 0", b"call 1 01", b"call 1 4294967296", b"crash 0", b"tell 0 1", b"prepare 01 1",
    b"recover 4294967296", b"op 1 1/0 get balance", b"op 1 0/1 get balance", b"op 1 1/01 get balance",
    b"op 1 1/4294967296 get balance", b"op 1 01/1 get balance", b"op 1 4294967296/1 get balance",
    b"op 1 1/-1 get balance", b"op 1 1 get balance", b"op 1 1/1 get", b"op 1 1/1 get balance x",
    b"op 1 1/1 get " + b"a" * 33, b"op 1 1/1 get Balance", b"op 1 1/1 sum", b"op 0 1/1 get balance",
    b"op 1. 1/1 get balance", b"op 1..1 1/1 get balance", b"op 01 1/1 get balance", b"op 1.0 1/1 get balance",
    b"op 1.01 1/1 get balance", b"op 4294967296 1/1 get balance", b"op 1.4294967296 1/1 get balance",
    b"op 1 1/1 set balance -0", b"op 1 1/1 set balance 01", b"op 1 1/1 set balance 9223372036854775808",
    b"op 1 1/1 set balance -9223372036854775809", b"op 1 1/1 set balance 1.0", b"op 1 1/1 fetch -0", b"op 1 1/1 add -0",
    b'op 1 1/1 set balance "\\u0041"', b'op 1 1/1 set balance "' + b"a" * 1025 + b'"', b'op 1 1/1 set balance "a',
    b'op 1 1/1 set balance "\\/"', b'op 1 1/1 set balance "\0"', b'op 1 1/1 set balance "\xff"',
    b'op 1 1/1 set balance "\t"', b'op 1 1/1 set balance "\xed\xa0\x80"',
    b'op 1 1/1 set balance "' + "é".encode() * 513 + b'"', b'op 1 1/1 set balance "\\ud800"', b"nest " + DEEP,
    b"call " + DEEP + b" 1", b"arms " + DEEP + b" s", b"op " + DEEP + b" 1/1 get balance", b"commit " + DEEP,
    b"abort " + DEEP, b"close " + DEEP, b"prepare 1 " + DEEP, b"decide " + DEEP, b"tell 1 " + DEEP, b"arms 1 x",
    b"tell 1", b"recover", b"close 1 1", b"decide", b"prepare 1",
]  # fmt: skip
STEPS = [
    b"top 4294967295", b"call 1 4294967295", b"call " + NAME + b" 1", b"commit " + NAME, b"tell 1 4294967295", b"arms 1",
    b"arms 1" + b" t" * 64, b"arms 1" + b" s" * 65, b"arms 1" + b" s" * 4093, b"op 1 1/4294967295 get balance",
    b"op 1 4294967295/1 get balance", b"op 1 1/1 get " + b"a" * 32, b"op 1 1/1 set balance 9223372036854775807",
    b"op 1 1/1 set balance -9223372036854775808", b'op 1 1/1 set balance "' + b"a" * 1024 + b'"',
    b'op 1 1/1 set balance "' + "é".encode() * 512 + b'"', b'op 1 1/1 set balance "' + b"\\u001f" * 1024 + b'"',
    b'op 1 1/1 set balance "\x7f"', b"op 1 1/1 fetch -9223372036854775808",
]  # fmt: skip


def transfer():
    """The steps and the answers of an example, line by line."""
    folder = EXAMPLES / "transfer"
    return [(folder / name).read_bytes().splitlines(keepends=True) for name in ("steps", "answers")]


def spoilt_line(program, line, before):
    steps, answers = transfer()
    given = b"".join(steps[:before]) + line + b"\n" + b"".join(steps[before:])
    wanted = Came(1, b"".join(answers[:before]) + b"error %d\n" % (before + 1), b"")
    return compared(run(program, "steps", EXAMPLES / "transfer/setup.json", "-", given=given), wanted)


def step_at_limit(program, line):
    came = run(program, "steps", EXAMPLES / "transfer/setup.json", "-", given=NEW_ACTION + line + b"\n")
    said = came.written.splitlines()
    fits = came.status == 0 and not came.fault and len(said) == 2 and all(map(spellings.is_answer, said))
    return None if fits else f"{came}; wanted two answers"


def lines(given):
    for line in LINES:
        for before in 0, 1, 7:
            yield f"line {before + 1} is {line[:60]!r}", spoilt_line, given.program, line, before
    for line in STEPS:
        yield f"a step at a limit, {line[:60]!r}", step_at_limit, given.program, line


# ---- setups


def setup_of(*contents):
    return json.dumps({"guardians": [{"objects": list(contents)}]}).encode()


def guardians_of(count, contents=()):
    return json.dumps({"guardians": [{"objects": list(contents)}] * count}).encode()


def fields_of(count):
    return setup_of({"record": {f"f{number}": number for number in range(count)}})


def array_of(low, count):
    return setup_of({"array": {"of": "int", "low": low, "items": [7] * count}})


def tags_of(count):
    return setup_of({"variant": {"tags": {f"t{number}": "int" for number in range(count)}, "tag": "t0", "value": 0}})


def nests(count):
    """A document of so many levels."""
    return b'{"guardians":' + b"[" * (count - 1) + b"]" * (count - 1) + b"}"


NUMBER = b'{"guardians":[{"objects":[{"counter":%b}]}]}'
RECORD = b'{"guardians":[{"objects":[{"record":{%b}}]}]}'
SETUPS = [
    guardians_of(1_024), setup_of(*[{"counter": 0}] * 1_024), fields_of(64), array_of(0, 65_536), array_of(-(2**62), 2),
    tags_of(64), array_of(2**62 - 1, 2), array_of(2**62, 0), setup_of({"record": {"a" * 32: "b" * 1_024}}),
    setup_of({"record": {"a": "é" * 512}}), NUMBER % b"9223372036854775807", NUMBER % b"-9223372036854775808",
    NUMBER % b"0 \t\r\n", RECORD % b'"a":"\\u0041"', RECORD % b'"a":null,"a":1', b"\r\n" + setup_of() + b"\n",
]  # fmt: skip
NO_SETUPS = [
    b"", b"null", b"[]", b"{}", nests(100), nests(127), nests(128), b"[" * 128 + b"]" * 128, b"[" * 100_000,
    guardians_of(0), guardians_of(1_025), setup_of(*[{"counter": 0}] * 1_025), fields_of(0), fields_of(65), tags_of(0),
    tags_of(65), array_of(0, 65_537), array_of(-(2**62) - 1, 0), array_of(2**62, 2), array_of(2**62 + 1, 0),
    setup_of({"record": {"a" * 33: 0}}), setup_of({"record": {"a": "b" * 1_025}}), setup_of({"record": {"a": "é" * 513}}),
    setup_of({}), setup_of({"counter": 0, "record": {}}), NUMBER % b"9223372036854775808",
    NUMBER % b"-9223372036854775809", NUMBER % b"-0", NUMBER % b"01", NUMBER % b"1.0", NUMBER % b"1e2", NUMBER % b"+1",
    NUMBER % b"NaN", NUMBER % b"1" * 2, NUMBER % b'"1"', RECORD % b'"a":1,"a":null', RECORD % b'"A":1', RECORD % b'"":1',
    RECORD % b'"a":"\xff"', RECORD % b'"a":"\xed\xa0\x80"', RECORD % b'"a":"\\ud800"', RECORD % b'"a":"\0"',
    RECORD % b'"a":1,', b"\xef\xbb\xbf" + setup_of(), setup_of() + b"\0", setup_of() + b"\xff", setup_of() + b" x",
    setup_of().decode().encode("utf-16"),
]  # fmt: skip


def is_no_setup(program, setup):
    came = with_file(setup, lambda name: run(program, "steps", name, "-", given=NEW_ACTION))
    return compared(came, Came(1, b"error setup\n", b""))


def is_setup(program, setup):
    came = with_file(setup, lambda name: run(program, "steps", name, "-", given=NEW_ACTION))
    return compared(came, Came(0, b"began 1\n", b""))


def setups(given):
    for trial, documents, is_one in (is_setup, SETUPS, True), (is_no_setup, NO_SETUPS, False):
        for setup in documents:
            if spellings.is_setup(setup) != is_one:
                raise ValueError(setup)
            yield f"a setup of {len(setup)} bytes, {setup[:80]!r}", trial, given.program, setup


# ---- scripts at a limit and beyond


def script(body, handlers=None, contents=({"counter": 0},)):
    guardian = {"objects": list(contents), "handlers": handlers or {}}
    return json.dumps({"guardians": [guardian], "clients": [{"home": 1, "body": body}]})


def nested(depth):
    """A body so many levels deep."""
    body = []
    for _ in range(depth - 1):
        body = [{"repeat": [1, body]}]
    return body


def handlers(count, params=0):
    named = [[f"p{number}", "int"] for number in range(params)]
    return {f"h{number}": {"params": named, "gives": "none", "body": []} for number in range(count)}


def clients(count):
    return json.dumps({"guardians": [{"objects": [], "handlers": {}}], "clients": [{"home": 1, "body": []}] * count})


def guardians(count):
    return json.dumps({"guardians": [{"objects": [], "handlers": {}}] * count, "clients": [{"home": 1, "body": []}]})


def counters(count):
    return script([], contents=[{"counter": 0}] * count)


def record(count):
    return script([], contents=[{"record": {f"f{number}": number for number in range(count)}}])


def array(count):
    return script([], contents=[{"array": {"of": "int", "low": 1, "items": [7] * count}}])


# What there is so many of, the script, the most, and the place of the fault if there is one more.
LIMITS = [
    ("levels of a body", lambda count: script(nested(count)), 16, "/clients/0/body" + "/0/repeat/1" * 16),
    ("handlers", lambda count: script([], handlers(count)), 64, "/guardians/0/handlers/h9"),  # the last in byte order
    ("parameters", lambda count: script([], handlers(1, count)), 8, "/guardians/0/handlers/h0/params"),
    ("turns", lambda count: script([{"repeat": [count, []]}]), 65_536, "/clients/0/body/0/repeat/0"),
    ("arms", lambda count: script([{"coenter": [{"arm": "sub", "body": []}] * count}]), 64, "/clients/0/body/0/coenter"),
    ("bytes of a text", lambda count: script([{"return": "a" * count}]), 1_024, "/clients/0/body/0/return"),
    ("clients", clients, 64, "/clients"),
    ("guardians", guardians, 1_024, "/guardians"),
    ("objects", counters, 1_024, "/guardians/0/objects"),
    ("fields", record, 64, "/guardians/0/objects/0/record"),
    ("items", array, 65_536, "/guardians/0/objects/0/array/items"),
]
# Statements with the number or the value of a place, and what is said of the place if the number is none.
PLACES = [
    ('{"op":[%s,"total"]}', "op/0", "fault 3"),
    ('{"call":[%s,"h0",[]]}', "call/0", "fault 2"),
    ('{"repeat":[%s,[]]}', "repeat/0", "fault 10"),
]
IDLE = script([])


def with_home(text):
    return IDLE.replace('"home": 1', f'"home": {text}')


def with_statement(text):
    return IDLE.replace('"body": []', f'"body": [{text}]')


def no_scripts():
    """Scripts that are none, and what `check` says of them."""
    for text in "0", "2", "-1", "4294967296", "9223372036854775807":
        yield with_home(text), "fault 2 /clients/0/home"
    for text in "-0", "1.0", "1e0", "9223372036854775808", '"1"', "null":
        yield with_home(text), "fault 1 /clients/0/home"
    for text in "-0", "1.0", "1e0", "9223372036854775808", "-9223372036854775809", "true":
        yield with_statement('{"return":%s}' % text), "fault 1 /clients/0/body/0/return"
        yield with_statement('{"return":{"add":[1,%s]}}' % text), "fault 1 /clients/0/body/0/return/add/1"
    for statement, place, fault in PLACES:
        for text in ("-1", "65537") if place == "repeat/0" else ("0", "2", "4294967296"):
            yield with_statement(statement % text), f"{fault} /clients/0/body/0/{place}"
        for text in "-0", "1.0", "9223372036854775808":
            yield with_statement(statement % text), f"fault 1 /clients/0/body/0/{place}"
    long = "a" * 33
    yield with_statement('{"op":[1,"total"],"into":"%s"}' % long), "fault 1 /clients/0/body/0/into"
    yield with_statement('{"return":{"var":"%s"}}' % long), "fault 8 /clients/0/body/0/return"
    yield with_statement('{"call":[1,"%s",[]]}' % long), "fault 4 /clients/0/body/0/call/1"
    yield script([], {long: {"params": [], "gives": "none", "body": []}}), "fault 1 /guardians/0/handlers"
    yield clients(0), "fault 10 /clients"
    yield guardians(0), "fault 10 /guardians"
    yield record(0), "fault 10 /guardians/0/objects/0/record"
    yield with_statement('{"coenter":[]}'), "fault 10 /clients/0/body/0/coenter"
    yield with_home("01"), "fault 1 /"
    yield '{"guardians":' + "[" * 126 + "]" * 126 + ',"clients":[]}', "fault 1 /guardians/0"
    yield '{"guardians":' + "[" * 127 + "]" * 127 + ',"clients":[]}', "fault 1 /"
    yield "[" * 128 + "]" * 128, "fault 1 /"
    yield "[" * 100_000, "fault 1 /"
    for text in IDLE + "\0", "\ufeff" + IDLE, IDLE + " x", IDLE.replace("[]", '["\\ud800"]', 1):
        yield text, "fault 1 /"


def is_checked(program, text, wanted):
    """What is wrong where a script is checked and run, or nothing."""
    content = text if isinstance(text, bytes) else text.encode()
    checked = with_file(content, lambda name: run(program, "check", name))
    if checked != wanted or wanted == OK:
        return compared(checked, wanted)
    return compared(with_file(content, lambda name: run(program, "run", name)), wanted)


def aborts(program, text, *words):
    came = with_file(text.encode(), lambda name: run(program, "run", *words, name))
    return compared(came, Came(0, b'client 1 aborted\n1/1 {"counter":0}\n', b""))


def limits(given):
    for name, made, most, place in LIMITS:
        yield f"{most} {name}", is_checked, given.program, made(most), OK
        yield f"{most + 1} {name}", is_checked, given.program, made(most + 1), Came(1, f"fault 10 {place}\n".encode(), b"")
    for text, said in no_scripts():
        yield f"a script of {len(text)} bytes, {said}", is_checked, given.program, text, Came(1, f"{said}\n".encode(), b"")
    for content in IDLE.encode() + b"\xff", IDLE.encode("utf-16"):
        yield "a script that is no UTF-8", is_checked, given.program, content, Came(1, b"fault 1 /\n", b"")
    for content in with_statement('{"return":"\\u0041"}'), IDLE.replace(" ", "\r\n"):
        yield "a script in another spelling", is_checked, given.program, content, OK
    turns = script([{"repeat": [65_536, [{"repeat": [65_536, []]}]]}])
    for words in [], ["--serial"]:
        yield f"a client of 2^32 turns {' '.join(words)}", aborts, given.program, turns, *words


# ---- pictures

STEPS_DRAWN = 2_500
TEXTS = ["<&>\"'", "]]>", "<!--", "&#0;", "\0\x1f\x7f\x85", "\t\n\r", "\ufffe\uffff\ufffd", "\U0010ffff", "é\u202e", "a" * 1_024]
# The options, and the first and the last event that are shown; no event if the last is the lesser.
WINDOWS = [
    ([], 501, 2_500), (["--from", "1"], 1, 2_000), (["--from", "100"], 100, 2_099), (["--from", "2400"], 2_400, 2_500),
    (["--to", "2100"], 101, 2_100), (["--to", "9"], 1, 9), (["--from", "7", "--to", "7"], 7, 7),
    (["--from", "2", "--to", "2500"], 2, 2_001),
    (["--to", str(2**64 - 1)], 501, 2_500), (["--from", "2500"], 2_500, 2_500), (["--from", "2501"], 2_501, 2_500),
    (["--from", "9", "--to", "8"], 9, 8),
]  # fmt: skip


def drawn(program, setup, steps, *options):
    """The picture of steps, as a document."""
    with tempfile.TemporaryDirectory() as folder:
        out = pathlib.Path(folder, "out")
        words = ["steps", "--picture", out, *options]
        came = with_file(setup, lambda name: run(program, *words, name, "-", given=steps))
        if came.status or came.fault:
            raise ValueError(came)
        return ElementTree.parse(out)


def titles(picture):
    return [it.text for it in picture.iter() if it.tag.endswith("title")]


def drawn_text(program, text):
    """A picture shows the text in a reply and in an operation. XML lacks two of its characters."""
    spelled = json.dumps(text, ensure_ascii=False)
    steps = f"top 1\nop 1 1/1 get a\nop 1 1/1 set a {spelled}\n"
    picture = drawn(program, setup_of({"record": {"a": text}}), steps.encode())
    shown = re.sub("[\ufffe\uffff]", "\ufffd", spelled)
    ends = f"get a -> {shown}", f"set a {shown} -> done"
    missing = [end for end in ends if not any(it.endswith(end) for it in titles(picture))]
    return f"{missing} is not shown" if missing else None


def drawn_window(program, options, first, last):
    steps = b"top 1\n" + b"op 1 1/1 add 1\n" * (STEPS_DRAWN - 1)
    picture = drawn(program, setup_of({"counter": 0}), steps, *options)
    said = [it.text for it in picture.iter() if it.get("class") == "window"]
    some, none = f"Events {first} to {last} of {STEPS_DRAWN} are shown.", f"No event of {STEPS_DRAWN} is shown."
    numbers = sorted(int(it.split()[1].rstrip(":")) for it in titles(picture) if it.endswith(" 1/1 add 1 -> done"))
    return compared(said, [some if first <= last else none]) or compared(numbers, list(range(max(2, first), last + 1)))


def pictures(given):
    for text in TEXTS:
        yield f"a picture with the text {text[:20]!r}", drawn_text, given.program, text
    for options, first, last in WINDOWS:
        yield f"a picture of {STEPS_DRAWN} events, {' '.join(options)}", drawn_window, given.program, options, first, last
