"""The histories that a run leaves, as the lines of a trace: which events the registry and each guardian have."""
from typing import NamedTuple

REGISTRY = 0  # the number of the registry's history
OUTSIDE = ("op", "crash", "recover")  # steps that do not take the registry


class Event(NamedTuple):
    step: str
    answer: str


class Copy(NamedTuple):
    """An event as the history of this number has it."""

    history: int
    stamp: int
    event: Event

    def line(self):
        owner = self.history if self.history != REGISTRY else "r"
        return f"{owner} {self.stamp} {self.event.step} -> {self.event.answer}\n"


class Actions:
    """The homes and the makers of what was begun, and what has ended, is closed, or is down."""

    def __init__(self):
        self.home, self.maker = {}, {}
        self.closed, self.ended, self.down = set(), set(), set()

    def add(self, event):
        kind, *words = event.step.split(" ")
        verb, *names = event.answer.split(" ")
        if verb == "began":
            home = int(words[0]) if kind == "top" else int(words[1]) if kind == "call" else self.home.get(words[0], 0)
            for name in names:
                self.home[name], self.maker[name] = home, None if kind == "top" else words[0]
        elif kind == "close":
            self.closed.add(words[0])
        elif kind in ("commit", "decide", "abort"):
            self.ended.add(words[0])
        elif kind == "crash":
            self.down.add(int(words[0]))
        elif kind == "recover":
            self.down.discard(int(words[0]))

    def named(self, step):
        """The numbers of the guardians that the step names; 0 is none."""
        kind, *words = step.split(" ")
        if kind in ("top", "tell", "crash", "recover"):
            return {int(words[0])}
        if kind == "call":
            return {self.home.get(words[0], 0), int(words[1])}
        if kind == "prepare":
            return {self.home.get(words[1], 0), int(words[0])}
        others = {"commit": words[0].rpartition(".")[0], "abort": self.maker.get(words[0])}
        return {self.home.get(words[0], 0), self.home.get(others.get(kind), 0)}


def is_accepted(answer):
    return not answer.startswith(("waits", "refused"))


def copies_of(events):
    """The copies of a run's events in all histories, one history after another."""
    actions, copies = Actions(), []
    for stamp, event in enumerate(events, 1):
        if event.step.split(" ")[0] not in OUTSIDE:
            copies.append(Copy(REGISTRY, stamp, event))
        copies += [Copy(guardian, stamp, event) for guardian in actions.named(event.step) if guardian]
        actions.add(event)
    return sorted(copies, key=lambda copy: (copy.history, copy.stamp))


def text_of(setup, copies):
    return f"setup {setup}\n" + "".join(copy.line() for copy in copies)


# ---- where histories fail


def events_of(copies):
    """The event of each stamp, in the order of the stamps."""
    events = {copy.stamp: copy.event for copy in copies}
    return {stamp: events[stamp] for stamp in sorted(events)}


def stands_late(stamp, history):
    """Whether the event of the stamp stands behind one whose stamp is not smaller."""
    places = [place for place, copy in enumerate(history) if copy.stamp == stamp]
    return any(before.stamp >= stamp for place in places for before in history[:place])


def least_failing(copies, guardians, wrong):
    """The least stamp at which the histories fail, if there is one. Wrong are the stamps whose answers are others."""
    limit = max([guardians] + [copy.history for copy in copies])
    histories = [[copy for copy in copies if copy.history == number] for number in range(limit + 1)]
    below = Actions()
    for stamp, event in events_of(copies).items():
        named = below.named(event.step) - {0} | ({REGISTRY} if event.step.split(" ")[0] not in OUTSIDE else set())
        there = {copy.history for copy in copies if copy.stamp == stamp}
        if (
            stamp in wrong
            or any(stands_late(stamp, history) for history in histories)
            or any(copy.event != event for copy in copies if copy.stamp == stamp)
            or there != {number for number in named if number <= limit}
        ):
            return stamp
        below.add(event)
    return None
