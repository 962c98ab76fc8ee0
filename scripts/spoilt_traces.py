"""The section of soak for traces that are cut or have a spoilt line. What must be said comes from a plain reading."""
import itertools

import spellings
from examples import trace_folders
from histories import Copy, Event, least_failing
from soaking import Came, compared, run

STEP = b"arms 10" + b" s" * 4093  # one byte too long
GREATEST = 2**64 - 1


def failing_of(file):
    """The stamps at which steps of an example have other answers than they must have."""
    words = (file.parent / "told").read_text().split()
    return {int(words[1])} if words[0] == "no" else set()


def said_of(given, wrong):
    """What must be said of a trace. Wrong are the stamps whose steps have other answers than they must have."""
    lines = spellings.read_trace(given)
    if isinstance(lines, str):
        return Came(1, f"{lines}\n".encode(), b"")
    guardians = len(spellings.read_json(given.partition(b"\n")[0].removeprefix(b"setup "))["guardians"])
    copies = [Copy(it.history, it.stamp, Event(it.step.decode(), it.answer.decode())) for it in lines]
    stamp = least_failing(copies, guardians, wrong)
    if stamp is not None:
        return Came(1, f"no {stamp}\n".encode(), b"")
    return Came(0, f"yes {len({copy.stamp for copy in copies})}\n".encode(), b"")


def judged(program, given, wrong):
    """What is wrong in what is said of a trace, or nothing."""
    return compared(run(program, "trace", "-", given=given), said_of(given, wrong))


def cut_trace(program, file, length):
    """Events that a cut leaves in all their histories have right answers: what these histories lack comes later."""
    return judged(program, file.read_bytes()[:length], failing_of(file))


# ---- one line is another


def spellings_of(line):
    """Bytes that are no line of a trace, made from a line."""
    owner, stamp, rest = line.split(b" ", 2)
    step, answer = rest.split(spellings.ARROW)
    join = lambda owner=owner, stamp=stamp, step=step, answer=answer: b" ".join([owner, stamp, step, b"->", answer])
    for other in b"0", b"0" + stamp, b"-1", b"+1", b"1.0", b"x", b"18446744073709551616", b"":
        yield join(stamp=other)
    for other in b"0", b"01", b"-1", b"R", b"rr", b"1025", b"4294967297", b"":
        yield join(owner=other)
    for other in b"top 0", b"top 01", b"top 4294967296", b"none", b"", step + b" ", b" " + step, step + b"\0", STEP:
        yield join(step=other)
    for other in b"refused 1", b"waits 1", b"began", b"began 0", b"granted maybe", b"vote maybe", b"done 01", b"done -1", b"":
        yield join(answer=other)
    for other in b"done 18446744073709551616", b"began " + b".".join([b"1"] * 33), answer + b"\xff":
        yield join(answer=other)
    for old, new in (b" -> ", b"->"), (b" -> ", b" -> -> "), (b" ", b"  "), (b" ", b"\t"):
        yield line.replace(old, new, 1)
    yield from (b"", b" ", b"\0", b"x" * 8193, line + b" ", line + b"\r", line + b"\0", b" " + line, rest, owner + b" " + rest)


def spoilt_lines(file):
    """The example with a line that is none."""
    setup, *lines = file.read_bytes().splitlines(keepends=True)
    for place, line in enumerate(lines):
        for other in spellings_of(line.removesuffix(b"\n")):
            yield setup + b"".join(lines[:place] + [other + b"\n"] + lines[place + 1 :])


def spoilt_setups(file):
    """The example with a setup line that is none."""
    setup, rest = file.read_bytes().split(b"\n", 1)
    document = setup.removeprefix(b"setup ")
    others = [b"", b"setup", b"setup ", document, b"setups " + document, b"setup" + document, b" " + setup, b"setup {}"]
    others += [setup + b"x", setup + b"\0", setup + b"\xff", setup.replace(b":", b":\n", 1), setup.replace(b" ", b"\n", 1)]
    for other in others:
        yield other + b"\n" + rest


def moved_lines(file):
    """The example with two neighbours exchanged, or with a line that comes twice, or last."""
    setup, *lines = file.read_bytes().splitlines(keepends=True)
    for place, (line, behind) in enumerate(itertools.pairwise(lines)):
        before, after = lines[:place], lines[place + 2 :]
        for others in [behind, line], [line, line, behind]:
            yield setup + b"".join(before + others + after)
        yield setup + b"".join(before + [behind] + after + [line])


def great_parts(file):
    """The example with the greatest stamp, guardian or step, and the stamps whose answers are wrong."""
    setup, *lines = file.read_bytes().splitlines(keepends=True)
    last = b" %d " % max(int(line.split()[1]) for line in lines)
    yield setup + b"".join(lines).replace(last, b" %d " % GREATEST), failing_of(file)
    for line in b"1024 %d crash 1024 -> done 0\n" % GREATEST, b"1 %d crash 1024 -> done 0\n" % GREATEST:
        yield setup + line, {GREATEST}
        yield setup + b"".join(lines) + line, failing_of(file) | {GREATEST}
    yield setup + b"r 1 arms 1" + b" s" * 4093 + b" -> began 1.1\n" + b"".join(lines), {1}


def changed(file):
    """Changes of the example, and the stamps whose steps have other answers than they must have."""
    for name, made in ("line", spoilt_lines), ("setup", spoilt_setups), ("moved line", moved_lines):
        for number, content in enumerate(made(file), 1):
            yield f"{name} {number}", content, failing_of(file)
    for number, (content, wrong) in enumerate(great_parts(file), 1):
        yield f"great part {number}", content, wrong


def traces(given):
    for file in (folder / "trace" for folder in trace_folders()):
        for length in range(len(file.read_bytes()) + 1):
            yield f"{file.parent.name}: trace cut after {length} bytes", cut_trace, given.program, file, length
        for name, content, wrong in changed(file):
            yield f"{file.parent.name}: trace with {name}", judged, given.program, content, wrong
