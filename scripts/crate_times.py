"""How long the checks of each crate take. It is a module of gate and of argus: Times(PROCESS).start(), then table(times).

It looks twice a second at the processes of rattle that a process has started. What ends sooner than that may go unseen."""
import os
import pathlib
import threading
import time

PAUSE = 0.5
TICKS = os.sysconf("SC_CLK_TCK")
KINDS = ("proof", "tests", "mutants")


class Span:
    """What was seen of one kind of check of one crate."""

    def __init__(self, now):
        self.begun = self.seen = now
        self.ticks = {}  # by process

    def note(self, now, process, ticks):
        self.seen, self.ticks[process] = now, ticks

    @property
    def wall(self):
        return self.seen - self.begun

    @property
    def cpu(self):
        return sum(self.ticks.values()) / TICKS


class Times(threading.Thread):
    """Looks at the descendants of a process until it is told to stop. `spans` has what was seen, by crate and kind."""

    def __init__(self, ancestor):
        super().__init__(daemon=True)
        self.ancestor, self.spans, self.named = ancestor, {}, {}
        self.stopped = threading.Event()

    def run(self):
        while not self.stopped.wait(PAUSE):
            self.look()

    def stop(self):
        self.stopped.set()
        self.join()

    def look(self):
        now, found = time.monotonic(), dict(processes())
        for process, (parent, begun, ticks) in found.items():
            if self.is_below(parent, found) and (key := self.name(process, begun)):
                self.spans.setdefault(key, Span(now)).note(now, (process, begun), ticks)

    def is_below(self, process, found):
        while process in found and process != self.ancestor:
            process = found[process][0]
        return process == self.ancestor

    def name(self, process, begun):
        """The crate that the process checks, and the kind of the check, if it is one.

        A process that is none yet may become one, and the number of one that has ended may be given again."""
        if (process, begun) not in self.named and (key := check_of(process)):
            self.named[process, begun] = key
        return self.named.get((process, begun))

    def of(self, crate, kind="proof"):
        """What was seen of the crate's checks of this kind."""
        return self.spans.get((crate, kind))


def processes():
    """Each process with its parent, when it began, and the ticks of CPU time that it took itself."""
    for entry in os.scandir("/proc"):
        if entry.name.isdigit():
            try:
                fields = pathlib.Path(entry.path, "stat").read_text().rpartition(")")[2].split()
            except OSError:
                continue
            yield int(entry.name), (int(fields[1]), int(fields[19]), int(fields[11]) + int(fields[12]))


def check_of(process):
    """The crate and the kind of the check that the process is, or nothing."""
    try:
        words = pathlib.Path(f"/proc/{process}/cmdline").read_bytes().decode(errors="replace").split("\0")
        folder = os.readlink(f"/proc/{process}/cwd")
    except OSError:
        return None
    if "--crate-name" not in words or not words[0].endswith("rattle"):
        return None
    crate = words[words.index("--crate-name") + 1]
    if os.path.basename(folder).startswith("rt-edit-"):
        return crate, "mutants"
    return crate, "tests" if "--test" in words else "proof"


def table(times):
    """A line for each crate: wall and CPU seconds of each kind of check. The crate that took most CPU comes first."""
    crates = {crate for crate, _ in times.spans}
    spent = {crate: sum(span.cpu for kind in KINDS if (span := times.of(crate, kind))) for crate in crates}
    yield f"{'seconds: wall / CPU':26}" + "".join(f"{kind:>17}" for kind in KINDS)
    for crate in sorted(crates, key=lambda it: -spent[it]):
        cells = (f"{span.wall:.0f} / {span.cpu:.0f}" if (span := times.of(crate, kind)) else "-" for kind in KINDS)
        yield f"{crate:26}" + "".join(f"{cell:>17}" for cell in cells)
    sums = (sum(span.cpu for (_, of), span in times.spans.items() if of == kind) for kind in KINDS)
    yield f"{'all, CPU':26}" + "".join(f"{seconds:>17.0f}" for seconds in sums)
