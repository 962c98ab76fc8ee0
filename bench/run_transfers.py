#!/usr/bin/env python3
"""`run_transfers.py PROGRAM [TRANSFERS]`: how many transfers a second (TRANSFERS of them, 500 where none is said) `PROGRAM steps --store` makes over four
stores in files, beside SQLite's own library making the same transactions in the same tables, and beside PostgreSQL's two phases, where it is installed.
All of them sync what they write before they go on. They take turns, and the middle one of three runs counts; what starting takes is not counted. The
first line says how long one sync takes here: a write of 4 KB at the end of a file, and `fdatasync`. Needs a C compiler and libsqlite3's header, and
libpq's for PostgreSQL."""
import json
import os
import pathlib
import shutil
import statistics
import subprocess
import sys
import tempfile
import time

sys.dont_write_bytecode = True
import workloads

HERE = pathlib.Path(__file__).resolve().parent
TURNS = 3
SYNCS = 100


def timed(words, **more):
    begun = time.monotonic()
    subprocess.run(words, check=True, stdout=subprocess.DEVNULL, **more)
    return time.monotonic() - begun


def sync_seconds(folder):
    """How long a sync takes, in the middle of many."""
    spent = []
    with open(folder / "synced", "wb", buffering=0) as file:
        for _ in range(SYNCS):
            begun = time.monotonic()
            file.write(bytes(4096))
            os.fdatasync(file.fileno())
            spent.append(time.monotonic() - begun)
    return statistics.median(spent)


class Argus:
    name = "argus"

    def __init__(self, folder, program):
        self.program, self.folder = program, folder
        self.setup = folder / "setup.json"

    def seconds(self, transfers):
        steps = self.folder / "steps"
        setup, steps_of = workloads.KINDS["transfers"]
        self.setup.write_text(json.dumps(setup))
        steps.write_text("".join(f"{line}\n" for top in range(1, transfers + 1) for line in steps_of(top)))
        with tempfile.TemporaryDirectory(dir=self.folder) as stores:
            return timed([self.program, "steps", "--store", stores, self.setup, steps])


class Sqlite:
    name = "SQLite's library"

    def __init__(self, folder):
        self.folder, self.program = folder, folder / "same_statements"
        subprocess.run(["cc", "-O2", "-o", self.program, HERE / "same_statements.c", "-lsqlite3"], check=True)

    def seconds(self, transfers):
        with tempfile.TemporaryDirectory(dir=self.folder) as stores:
            return timed([self.program, "transfers", stores, str(transfers)])


class Postgres:
    name = "PostgreSQL"

    def __init__(self, folder, bin, databases=4, more=""):
        self.folder, self.bin, self.data, self.program = folder, bin, folder / "data", folder / "postgres_transfers"
        include = subprocess.run([bin / "pg_config", "--includedir"], check=True, capture_output=True, text=True).stdout.strip()
        subprocess.run(["cc", "-O2", f"-I{include}", "-o", self.program, HERE / "postgres_transfers.c", "-lpq"], check=True)
        self.data.mkdir()
        if os.getuid() == 0:  # the server does not run as root
            self.as_user = ["runuser", "-u", "nobody", "--"]
            shutil.chown(self.data, "nobody")
            folder.chmod(0o755)
        else:
            self.as_user = []
        self.call("initdb", "-A", "trust", "-U", "argus", "-D", self.data)
        self.call("pg_ctl", "-w", "-D", self.data, "-l", self.data / "log", "-o",
                  f"-c listen_addresses= -c unix_socket_directories={self.data} -c max_prepared_transactions=10 {more}", "start")
        for guardian in range(1, databases + 1):
            self.call("createdb", "-h", self.data, "-U", "argus", f"g{guardian}")

    def call(self, name, *words):
        subprocess.run([*self.as_user, self.bin / name, *words], check=True, stdout=subprocess.DEVNULL, cwd="/")

    def seconds(self, transfers):
        return timed([self.program, self.data, str(transfers)])

    def stop(self):
        self.call("pg_ctl", "-w", "-m", "fast", "-D", self.data, "stop")


def server_folder():
    """The folder of PostgreSQL's programs, if its server is installed."""
    config = shutil.which("pg_config")
    if config:
        bin = pathlib.Path(subprocess.run([config, "--bindir"], check=True, capture_output=True, text=True).stdout.strip())
        if (bin / "initdb").exists():
            return bin
    return None


def main():
    program, transfers = pathlib.Path(sys.argv[1]).resolve(), int(sys.argv[2]) if len(sys.argv) > 2 else 500
    with tempfile.TemporaryDirectory(dir=".") as scratch:
        folder = pathlib.Path(scratch).resolve()
        print(f"a sync takes {sync_seconds(folder) * 1e3:.2f} ms\n", flush=True)
        makers = [Argus(folder, program), Sqlite(folder)]
        bin = server_folder()
        server = Postgres(folder, bin) if bin else None
        try:
            makers += [server] if server else []
            turns = [[maker.seconds(transfers) - maker.seconds(0) for maker in makers] for _ in range(TURNS)]
        finally:
            if server:
                server.stop()
        print("| made by | transfers a second | milliseconds each |\n|---|---|---|")
        for at, maker in enumerate(makers):
            each = statistics.median(turn[at] for turn in turns) / transfers
            print(f"| {maker.name} | {1 / each:,.0f} | {each * 1e3:.2f} |", flush=True)


if __name__ == "__main__":
    main()
