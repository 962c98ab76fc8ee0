"""The sections of soak over stores in files: a full disk, files that are no stores, and turned bits."""
import contextlib
import functools
import itertools
import json
import os
import pathlib
import random
import sqlite3
import subprocess
import tempfile

from examples import answers_of, status_of, two_phases
from soaking import NEW_ACTION, Came, Skipped, run
from stopped_systems import Found, promised_after

REFUSED = Came(1, b"error store\n", b"")
FAILED = Came(2, b"", b"fault store\n")


def open_again(program, folder, stores, **how):
    return run(program, "steps", "--store", stores, "--reopen", folder / "setup.json", "-", given=NEW_ACTION, **how)


def opened(program, folder, stores):
    """What is wrong if a system is opened from these stores: it opens, or they are said to be none."""
    return wrong_opening(open_again(program, folder, stores))


def wrong_opening(came):
    fits = came.status == 0 and came.written.startswith((b"began ", b"refused ")) and not came.fault
    return None if fits or came in (REFUSED, FAILED) else f"{came}; wanted an answer, 'error store' or 'fault store'"


# ---- a full disk


def is_mounted(folder, options):
    return subprocess.run(["mount", "-t", "tmpfs", "-o", options, "tmpfs", folder], capture_output=True).returncode == 0


def small_disk(program, folder, size):
    with tempfile.TemporaryDirectory() as disk:
        if not is_mounted(disk, f"size={size}k"):
            return "the disk was not mounted"
        try:
            return on_small_disk(program, folder, disk)
        finally:
            subprocess.run(["umount", disk], check=True)


def on_small_disk(program, folder, disk):
    wanted = answers_of(folder)
    came = run(program, "steps", "--store", disk, folder / "setup.json", folder / "steps")
    is_full = came.status == 2 and came.fault == b"fault store\n" and wanted.startswith(came.written)
    if not is_full and came != Came(status_of(folder), wanted, b""):
        return f"{came}; wanted the answers, or a beginning of them and 'fault store'"
    subprocess.run(["mount", "-o", "remount,size=16m", disk], check=True)
    made = came.written.count(b"\n")
    setup, steps, answers = ((folder / name).read_text() for name in ("setup.json", "steps", "answers"))
    parts = [(steps.splitlines()[:count], answers.splitlines()[:count]) for count in (made, made + 1)]
    allowed = [promised_after(json.loads(setup), *part) for part in parts] + ([] if made else [REFUSED])
    held = found(program, folder, pathlib.Path(disk))
    return None if held in allowed else f"opened after {made} steps: {held}; wanted one of {allowed}"


def found(program, folder, stores):
    """What a system is opened with from the stores; or what the program says, if it is not opened."""
    again = open_again(program, folder, stores)
    if again.status or again.fault or not again.written.startswith(b"began "):
        return again
    shown = run_again(program, folder, stores)
    if shown.status or shown.fault:
        return shown
    held = dict(line.split(" ", 1) for line in shown.written.decode().splitlines()[1:])
    return Found(int(again.written.split()[1]), {name: json.loads(text) for name, text in held.items()})


def disk(given):
    with tempfile.TemporaryDirectory() as folder:
        can_mount = is_mounted(folder, "size=64k")
        if can_mount:
            subprocess.run(["umount", folder], check=True)
    if not can_mount:
        raise Skipped("since no disk can be mounted")
    for folder in two_phases():
        for size in range(8, 648, 40):
            yield f"{folder.name}: a disk of {size} KiB", small_disk, given.program, folder, size


# ---- files that are no stores

TABLES = ("meta", "base", "prepared", "prepared_val", "prepared_delta", "decided")


@functools.cache
def stores_of(program, folder):
    """The files that the steps of an example leave, by their names."""
    with tempfile.TemporaryDirectory() as stores:
        came = run(program, "steps", "--store", stores, folder / "setup.json", folder / "steps")
        if came != Came(status_of(folder), answers_of(folder), b""):
            raise ValueError(came)
        return {file.name: file.read_bytes() for file in pathlib.Path(stores).iterdir()}


def with_stores(program, folder, use):
    """What is made of the stores that the steps of an example leave."""
    with tempfile.TemporaryDirectory() as name:
        stores = pathlib.Path(name)
        for file, content in stores_of(program, folder).items():
            (stores / file).write_bytes(content)
        return use(stores)


def script_over(folder):
    """A script whose one client does nothing, over the objects of an example."""
    guardians = json.loads((folder / "setup.json").read_text())["guardians"]
    guardians = [{"objects": guardian["objects"], "handlers": {}} for guardian in guardians]
    return json.dumps({"guardians": guardians, "clients": [{"home": 1, "body": []}]})


def run_again(program, folder, stores, **how):
    script = stores / "script.json"
    script.write_text(script_over(folder))
    return run(program, "run", "--serial", "--store", stores, script, **how)


def settle(file):
    """Brings what stands in a database's log into its file."""
    with contextlib.closing(sqlite3.connect(file)) as store:
        store.execute("PRAGMA wal_checkpoint(TRUNCATE)")


def first_file(program, folder):
    """The file of the first guardian after the steps of an example."""

    def use(stores):
        settle(stores / "g1.db")
        return (stores / "g1.db").read_bytes()

    return with_stores(program, folder, use)


def content_of(file):
    return file.read_bytes() if file.is_file() else sorted(file.iterdir()) if file.is_dir() else None


def spoilt_file(program, folder, number, spoil, again, allowed):
    """What is wrong where the file of a guardian was spoilt, or nothing. Files stay as they are if one is refused, but a
    file that was empty or missing may be a new store then."""

    def use(stores):
        file = stores / f"g{number}.db"
        settle(file)
        spoil(file)
        before = content_of(file)
        came = again(program, folder, stores)
        if came not in allowed and not (None in allowed and came.status == 0 and not came.fault):
            return f"{came}; wanted one of {[it and str(it) for it in allowed]}"
        has_changed = before and content_of(file) != before
        return "a file was refused, and this one has changed" if came == REFUSED and has_changed else None

    return with_stores(program, folder, use)


def changed_by(*statements):
    """A change of a database."""

    def change(file):
        with contextlib.closing(sqlite3.connect(file)) as store, store:
            for statement in statements:
                store.execute(statement)

    return change


def replaced_by(content):
    def replace(file):
        file.write_bytes(content)

    return replace


def new_database(*statements):
    def make(file):
        file.unlink()
        changed_by(*statements)(file)

    return make


def folder_in_place(file):
    file.unlink()
    file.mkdir()


def cut_to(length):
    return lambda file: os.truncate(file, length)


SPOILT = [
    ("of version 3", changed_by("UPDATE meta SET v = 3 WHERE k = 'version'")),
    ("of version 0", changed_by("UPDATE meta SET v = 0 WHERE k = 'version'")),
    ("of no version", changed_by("DELETE FROM meta WHERE k = 'version'")),
    ("with a version in text", changed_by("UPDATE meta SET v = 'two' WHERE k = 'version'")),
    ("with no next top action", changed_by("DELETE FROM meta WHERE k = 'next_top'")),
    ("with a next top action 0", changed_by("UPDATE meta SET v = 0 WHERE k = 'next_top'")),
    ("with a count below 0", changed_by("UPDATE meta SET v = -1 WHERE k = 'count'")),
    ("with a count that is no number", changed_by("UPDATE meta SET v = x'00' WHERE k = 'count'")),
    ("with a base that is no JSON", changed_by("INSERT INTO base VALUES (1000, '{')")),
    ("with a base that is no UTF-8", changed_by("INSERT INTO base VALUES (1000, CAST(x'7b22ff227d' AS TEXT))")),
    ("with a base of object 0", changed_by("INSERT INTO base VALUES (0, '{\"counter\":1}')")),
    ("with a part of no record", changed_by("INSERT INTO prepared_delta VALUES (77, 1, 5)")),
    ("that is no database", replaced_by(b"Not a database, but a letter of some length.\n" * 200)),
    ("of zeros", replaced_by(bytes(8192))),
] + [(f"without {name}", changed_by(f"DROP TABLE {name}")) for name in TABLES]  # fmt: skip
OTHERS = [
    ("of another program", new_database("CREATE TABLE other(x INTEGER)", "INSERT INTO other VALUES (5)"), {None, REFUSED}),
    ("with another table", changed_by("CREATE TABLE other(x INTEGER)"), {None}),
    ("with a column more", changed_by("ALTER TABLE decided ADD COLUMN x INTEGER"), {None}),
    ("of no table", new_database("VACUUM"), {None, REFUSED}),
    ("that is empty", cut_to(0), {None, REFUSED}),
    ("that is missing", pathlib.Path.unlink, {None, REFUSED}),
    ("that is a folder", folder_in_place, {REFUSED, FAILED}),
]
WAYS = {"steps --reopen": open_again, "run --store": run_again}


def unpermitted(program, folder, mode, again):
    """What is wrong where another user may not read or write the files, or nothing."""

    def use(stores):
        os.chmod(stores, 0o755)
        for file in stores.glob("g*.db"):
            os.chmod(file, mode)
        before = [file.read_bytes() for file in sorted(stores.glob("g*.db"))]
        came = again(program, folder, stores, user="nobody")
        after = [file.read_bytes() for file in sorted(stores.glob("g*.db"))]
        is_right = came in (REFUSED, FAILED) and before == after
        return None if is_right else f"{came}; wanted a refusal, and the files as they were"

    return with_stores(program, folder, use)


def permissions(program):
    """The trials of files without permission; none if this user cannot become one who lacks it."""
    try:
        subprocess.run([program, "steps"], user="nobody", capture_output=True)
    except (OSError, LookupError) as error:
        print(f"files: those without permission are skipped: {error}")
        return
    for folder in two_phases()[:4]:
        for mode, (name, again) in itertools.product((0o000, 0o200, 0o444), WAYS.items()):
            yield f"{folder.name}: {name}, files of mode {mode:o}", unpermitted, program, folder, mode, again


def cuts(program, folder):
    """How long the first guardian's file may be cut to."""
    return range(512, len(first_file(program, folder)), 512)


def files(given):
    for folder in two_phases():
        guardians = len(json.loads((folder / "setup.json").read_text())["guardians"])
        for number, (name, again) in itertools.product(range(1, guardians + 1), WAYS.items()):
            trials = [(kind, spoil, {REFUSED}) for kind, spoil in SPOILT] + OTHERS
            if number == 1:
                anything = {None, REFUSED, FAILED}
                trials += [(f"cut to {length} bytes", cut_to(length), anything) for length in cuts(given.program, folder)]
            for kind, spoil, allowed in trials:
                allowed = allowed | {REFUSED} if again is run_again else allowed  # a top action may be prepared
                of = f"{folder.name}: {name}, a file of guardian {number} {kind}"
                yield of, spoilt_file, given.program, folder, number, spoil, again, allowed
    yield from permissions(given.program)


# ---- turned bits


def turned_bit(program, folder, place):
    def use(stores):
        files = sorted(file for file in stores.iterdir() if file.stat().st_size)
        chosen = random.Random(place)
        file = chosen.choice(files)
        held = bytearray(file.read_bytes())
        held[chosen.randrange(len(held))] ^= 1 << chosen.randrange(8)
        file.write_bytes(held)
        return opened(program, folder, stores)

    return with_stores(program, folder, use)


def bits(given):
    chosen = random.Random(given.seed)
    folders = two_phases()
    for number in itertools.count():
        folder = chosen.choice(folders)
        yield f"{folder.name}: bit {number} turned", turned_bit, given.program, folder, number
