"""The sections of soak that run scripts in threads."""
import contextlib
import functools
import itertools
import json
import pathlib
import random
import sqlite3
import tempfile

import refusing
import soaking
import spellings
from contents import contents_of
from examples import script_folders
from histories import Actions, Copy, Event, events_of
from random_scripts import LARGE, script_of
from soaking import Came, compared, run, with_file

# ---- scripts in threads

ORDERS = 200
RUNS = 10

# Two clients of this example read the rooms before they write them. If both have read, each waits for the other.
WAITING = {"reservations"}
PATIENCE = 5  # the clients have a fifth of the seconds that one run may take
TIME = Came(2, b"", b"fault time\n")


def permuted(chosen, value):
    """The value, with the arms of each coenter in an order by chance."""
    if isinstance(value, list):
        return [permuted(chosen, item) for item in value]
    if not isinstance(value, dict):
        return value
    value = {name: permuted(chosen, item) for name, item in value.items()}
    if "coenter" in value:
        chosen.shuffle(value["coenter"])
    return value


def with_script(script, use):
    return with_file(json.dumps(script).encode(), use)


def serial_output(program, script, order):
    """What a serial run prints of the clients in the order, with their lines in the script's order."""
    other = {**script, "clients": [script["clients"][place] for place in order]}
    came = with_script(other, lambda name: run(program, "run", "--serial", name))
    lines = came.written.splitlines(keepends=True)
    if came.status or came.fault or len(lines) != len(order) + len(objects_of(script)):
        raise ValueError(came)
    own = [b"client %d %s" % (place + 1, line.split(b" ", 2)[2]) for place, line in zip(order, lines)]
    return b"".join(sorted(own, key=lambda line: int(line.split()[1])) + lines[len(order) :])


@functools.cache
def serial_outputs(program, folder):
    """What serial runs print of the clients and arms of an example in some orders."""
    chosen, script = random.Random(0), json.loads((folder / "script.json").read_text())
    order = list(range(len(script["clients"])))
    outputs = {serial_output(program, script, order)}
    if outputs != {(folder / "ran").read_bytes()}:
        raise ValueError(outputs)
    for _ in range(ORDERS):
        chosen.shuffle(order)
        outputs.add(serial_output(program, permuted(chosen, script), order))
    return outputs


def in_threads(program, folder):
    outputs, ended = serial_outputs(program, folder), 0
    for _ in range(RUNS):
        came = run(program, "run", "--seconds", str(max(1, soaking.seconds() // PATIENCE)), folder / "script.json")
        if came == TIME and folder.name in WAITING:
            continue
        if came.status or came.fault or came.written not in outputs:
            return f"{came}; wanted one of {len(outputs)} outputs, such as {min(outputs)[-200:]!r}"
        ended += 1
    return None if ended else "no run ended"


def orders(given):
    folders = [folder for folder in script_folders() if (folder / "ran").exists()]
    for number, folder in ((number, folder) for number in itertools.count(1) for folder in folders):
        yield f"{folder.name}: {RUNS} runs in threads, time {number}", in_threads, given.program, folder


# ---- random scripts in threads


def made(trace):
    """The events of a trace, in the order of their stamps."""
    lines = [line.split(" ", 2) for line in trace.splitlines()[1:]]
    return list(events_of([Copy(None, int(stamp), Event(*event.rsplit(" -> ", 1))) for _, stamp, event in lines]).values())


def setup_of(script):
    return {"guardians": [{"objects": guardian["objects"]} for guardian in script["guardians"]]}


def over(installed, content):
    """What an object holds whose store has this, and which held the content at first."""
    if "delta" not in installed:
        return installed
    return {"counter": (content["counter"] + installed["delta"] + 2**63) % 2**64 - 2**63}


def bases_of(stores, setup):
    """The base of each object, by its number in text, as the tables of the stores have it."""
    bases = {}
    for home, guardian in enumerate(setup["guardians"], 1):
        with contextlib.closing(sqlite3.connect(stores / f"g{home}.db")) as store:
            installed = {number: json.loads(text) for number, text in store.execute("SELECT obj, val FROM base")}
        for number, content in enumerate(guardian["objects"], 1):
            bases[f"{home}/{number}"] = over(installed.get(number, content), content)
    return bases


def wrong_ends(script, lines, events):
    """What is wrong in how the clients ended, by the events, or nothing."""
    actions, decided = Actions(), []
    for event in events:
        actions.add(event)
        if event.step.startswith("decide "):
            decided.append(event.step.split(" ")[1])
    if left := sorted(set(actions.home) - actions.ended):
        return f"left open: {', '.join(left)}"
    committed = sorted(client["home"] for client, line in zip(script["clients"], lines) if line.split(" ")[2] == "committed")
    wanted = sorted(actions.home[name] for name in decided if actions.maker[name] is None)
    return None if committed == wanted else f"clients of {committed} committed; top actions of {wanted} were decided"


def in_steps(program, folder, script, events, printed):
    """What is wrong where `argus steps` makes the events over stores in the folder, or nothing."""
    setup = setup_of(script)
    (folder / "setup.json").write_text(json.dumps(setup))
    (folder / "stores").mkdir()
    steps, answers = ("".join(f"{part}\n" for part in parts).encode() for parts in zip(*events))
    came = run(program, "steps", "--store", folder / "stores", folder / "setup.json", "-", given=steps)
    bases = {name: json.loads(content) for name, content in (line.split(" ", 1) for line in printed)}
    return (
        compared(bases, contents_of(setup, events))
        or compared(came, Came(0, answers, b""))
        or compared(bases, bases_of(folder / "stores", setup))
    )


def wrong_run(program, folder, script, came):
    """What is wrong in a run of the script that wrote its trace into the folder, or nothing."""
    if came.status or came.fault:
        return f"{came}; wanted status 0"
    trace = folder / "trace"
    lines, events = came.written.decode().splitlines(), made(trace.read_text())
    ends, printed = lines[: len(script["clients"])], lines[len(script["clients"]) :]
    return (
        compared(run(program, "trace", trace), Came(0, b"yes %d\n" % len(events), b""))
        or wrong_ends(script, ends, events)
        or in_steps(program, folder, script, events, printed)
    )


def random_script(program, seed):
    return with_random_script(program, script_of(seed), lambda folder, words: run(program, *words), wrong_run)


def with_random_script(program, script, ran, wrong):
    """What is wrong where the script is checked and run, or nothing."""
    with tempfile.TemporaryDirectory() as name:
        folder = pathlib.Path(name)
        file = folder / "script.json"
        file.write_text(json.dumps(script))
        came = ran(folder, ["run", "--trace", folder / "trace", file])
        return compared(run(program, "check", file), Came(0, b"ok\n", b"")) or wrong(program, folder, script, came)


def scripts(given):
    for seed in itertools.count(given.seed):
        yield f"random_scripts.py {seed}", random_script, given.program, seed


# ---- large scripts in threads

ALLOCATIONS = 5.5  # the logarithm of the greatest number of one that is refused
ROOM = 65_536  # bytes of a file, where there may be too few


def is_beginning(script, written):
    """Whether the bytes may be a beginning of what a run of the script prints."""
    fronts = [b"client %d " % number for number in range(1, len(script["clients"]) + 1)]
    fronts += [b"%d/%d " % at for at in objects_of(script)]
    lines = spellings.split(written)
    return len(lines) <= len(fronts) and all(line[: len(front)] == front[: len(line)] for line, front in zip(lines, fronts))


def objects_of(script):
    return [(home, number) for home, it in enumerate(script["guardians"], 1) for number in range(1, len(it["objects"]) + 1)]


def wrong_refused_run(program, folder, script, came):
    """What is wrong in a run that may have been refused memory, or nothing."""
    came = came._replace(fault=came.fault.replace(refusing.MARK, b"", 1))
    if came.status != 2 or came.fault != b"fault memory\n":
        return wrong_run(program, folder, script, came)
    left = (folder / "trace").read_bytes() if (folder / "trace").exists() else b""
    read = spellings.read_trace(left)
    is_cut = not left.endswith(b"\n") and read in ("error setup", f"error {len(spellings.split(left))}")
    if not is_beginning(script, came.written) or not (is_cut or isinstance(read, list)):
        return f"{came}; the trace is {read}; wanted beginnings"
    return None


def wrong_stored_run(program, folder, script, came):
    """What is wrong in a run over stores in the folder, or nothing."""
    if fault := wrong_run(program, folder, script, came):
        return fault
    printed = came.written.decode().splitlines()[len(script["clients"]) :]
    bases = {name: json.loads(content) for name, content in (line.split(" ", 1) for line in printed)}
    return compared(bases, bases_of(folder, setup_of(script))) or short_stores(program, folder, script)


def short_stores(program, folder, script):
    """What is wrong where no file may have more than so many bytes, or nothing. The stores open again."""
    stores, idle = folder / "short", folder / "idle.json"
    stores.mkdir()
    idle.write_text(json.dumps({**script, "clients": [{"home": 1, "body": []}]}))
    most = random.Random(json.dumps(script)).randrange(ROOM)
    limit = ["prlimit", f"--fsize={most}:{most}", program]
    came = run(*limit, "run", "--store", stores, folder / "script.json", restore_signals=False)
    again = run(program, "run", "--serial", "--store", stores, idle)
    if came != Came(2, b"", b"fault store\n") and (came.status or came.fault):
        return f"files of {most} bytes: {came}; wanted status 0 or 'fault store'"
    return None if again.status == 0 and not again.fault else f"after files of {most} bytes: {again}; wanted status 0"


def large_script(program, library, seed):
    """A run in memory, one over stores, or one that is refused an allocation."""
    script, way = script_of(seed, LARGE), seed % 3
    if way == 0:
        number = int(10 ** random.Random(seed).uniform(0, ALLOCATIONS))
        env = refusing.refused(library, number)
        return with_random_script(program, script, lambda folder, words: run(program, *words, env=env), wrong_refused_run)
    if way == 1:
        stored = lambda folder, words: run(program, *words, "--store", folder)
        return with_random_script(program, script, stored, wrong_stored_run)
    return with_random_script(program, script, lambda folder, words: run(program, *words), wrong_run)


def load(given):
    with refusing.library() as library:
        for seed in itertools.count(given.seed):
            yield f"random_scripts.py {seed} large", large_script, given.program, library, seed


# ---- clients that wait for each other

TRIES = 20
TURNS = 40_000
ARMS = 64


def opposite_orders():
    """A script of two clients, each of which writes its number to an object, idles, and writes it to that of the other."""

    def client(first, second):
        write = [[{"op": [number, "set", "n", first]}] for number in (first, second)]
        return {"home": 1, "body": [*write[0], {"repeat": [TURNS, []]}, *write[1]]}

    guardian = {"objects": [{"record": {"n": 0}}] * 2, "handlers": {}}
    return {"guardians": [guardian], "clients": [client(1, 2), client(2, 1)]}


def committed(*numbers):
    return b"".join(b"client %d committed\n" % number for number in numbers)


def both_hold(number):
    return b'1/1 {"record":{"n":%d}}\n1/2 {"record":{"n":%d}}\n' % (number, number)


# What may come of the clients in opposite orders, and what both objects then hold: nothing is saved, or one client was last.
ENDS = {TIME: 0} | {Came(0, committed(1, 2) + both_hold(last), b""): last for last in (1, 2)}


def wait_for_each_other(program, script):
    idle = {**script, "clients": [{"home": 1, "body": []}]}
    with tempfile.TemporaryDirectory() as folder:
        stored = lambda it, *words: with_script(it, lambda name: run(program, "run", *words, "--store", folder, name))
        came = stored(script, "--seconds", "1")
        left = stored(idle, "--serial")
    if came not in ENDS:
        return f"{came}; wanted one of {[str(end) for end in ENDS]}"
    return compared(left, Came(0, committed(1) + both_hold(ENDS[came]), b""))


def wait_at_last(program, script):
    """Clients in opposite orders wait for each other in some run."""
    runs = (with_script(script, lambda name: run(program, "run", "--seconds", "1", name)) for _ in range(TRIES))
    return None if TIME in runs else f"the clients did not wait in {TRIES} runs"


def arms_of(*bodies):
    return [{"coenter": [{"arm": "sub", "body": body} for body in bodies]}]


def all_arms_count(program, clients):
    """Each client begins 64 arms, which add one each."""
    body = arms_of(*[[{"op": [1, "add", 1]}]] * ARMS)
    guardian = {"objects": [{"counter": 0}], "handlers": {}}
    script = {"guardians": [guardian], "clients": [{"home": 1, "body": body}] * clients}
    came = with_script(script, lambda name: run(program, "run", name))
    ends = committed(*range(1, clients + 1))
    return compared(came, Came(0, ends + b'1/1 {"counter":%d}\n' % (clients * ARMS), b""))


def time_ends_arms(program, seconds):
    """A client begins 64 arms, and each of these 64 that write two objects in opposite orders."""
    orders = [client["body"] for client in opposite_orders()["clients"]]
    body = arms_of(*[arms_of(*orders * (ARMS // 2))] * ARMS)
    script = {**opposite_orders(), "clients": [{"home": 1, "body": body}]}
    return compared(with_script(script, lambda name: run(program, "run", "--seconds", str(seconds), name)), TIME)


def waiting(given):
    yield "clients wait for each other at last", wait_at_last, given.program, opposite_orders()
    for number in itertools.count(1):
        yield f"clients that wait for each other, {number}", wait_for_each_other, given.program, opposite_orders()
        clients, seconds = (1, 8, 64)[number % 3], 1 + number % 3
        yield f"{clients} clients of {ARMS} arms, {number}", all_arms_count, given.program, clients
        yield f"{ARMS}^2 arms, {seconds} seconds, {number}", time_ends_arms, given.program, seconds
