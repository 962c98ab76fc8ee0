"""random_scripts.py SEED [large]: prints the script that `scripts/soak` runs for this seed.

A script has 2 to 8 clients over 1 to 4 guardians, with calls, coenters, nested top actions, signals and aborts. A large
one has 16 clients over 8 guardians, and aborts more often. Clients and arms wait for each other, but not for ever:

- Some counters are *sums*: all operations on them are adds, and adds do not conflict.
- A client first takes the objects that it will use, in rising order of guardian and number. It takes each by the
  strongest operation that it will make of it. Then it uses them in any order.
- The arms of a coenter use objects that their top action has taken, and sums. If an arm writes an object, the other
  arms do not use it. One object at most is an exception, which all arms of the coenter share: each writes it first. If
  two arms could read it and then write it, each would wait for the other.
- A nested top action takes objects as a client does. They come after all that the top actions around it have taken.
  Then it may write one object that these have taken: it waits for its starter, and aborts.

Suppose that actions wait for each other for ever. Of the objects for which they wait and which another top action has,
look at the last. Nothing in the top action that has it waits for another top action, since it would wait for a later
object. So arms in that top action wait for other arms of their coenter: for the shared object. The arm that has the
shared object waits only for arms of a coenter within it, and so on. The innermost arms wait for nothing."""
import json
import random
import sys
from typing import NamedTuple

DEPTH = 4  # of statements within statements
STATEMENTS = 20  # of a client that have bodies


class Size(NamedTuple):
    """How much there is in a script. There are 64 handlers at most: two that take each object, and those of calls."""

    clients: tuple  # from so many to so many
    guardians: tuple
    objects: tuple  # of each guardian
    calls: int  # handlers that are made for one call
    ends: int  # of a hundred statements, those that abort or return


USUAL = Size((2, 8), (1, 4), (1, 3), calls=40, ends=4)
LARGE = Size((16, 16), (8, 8), (1, 2), calls=32, ends=8)

CONTENTS = {
    "record": {"record": {"n": 1, "name": "x"}},
    "array": {"array": {"of": "int", "low": 1, "items": [5]}},
    "variant": {"variant": {"tags": {"none": "int", "some": "text"}, "tag": "none", "value": 0}},
    "counter": {"counter": 3},
    "sum": {"counter": 9223372036854775800},
}
# Of each operation its words, with a type for an argument, and the sort of its reply. The first of a kind takes an object.
READS = {
    "record": [(["get", "n"], "int"), (["get", "name"], "text")],
    "array": [(["size"], "int"), (["low"], "int"), (["high"], "int"), (["fetch", int], "int")],
    "variant": [(["is", "some"], "truth"), (["value", "none"], "int"), (["value", "some"], "text")],
    "counter": [(["total"], "int")],
    "sum": [],
}
WRITES = {
    "record": [(["set", "n", int], None), (["set", "name", str], None)],
    "array": [(["addh", int], None), (["addl", int], None), (["store", int, int], None), (["remh"], "int"), (["reml"], "int")],
    "variant": [(["change", "none", int], None), (["change", "some", str], None)],
    "counter": [(["put", int], None), (["add", int], None)],
    "sum": [(["add", int], None)],
}


class Place(NamedTuple):
    """A place in a script: where its code runs, what it may use, and which variables are bound."""

    home: int
    own: dict  # whether it writes, of each object that it may use
    shared: tuple  # the object that it shares with other arms, or none
    taken: dict  # of all top actions around it
    scope: dict  # the sort of each variable
    gives: object  # what it may return: "int", "none" or "anything"; None in a nested top action
    depth: int

    def within(self, **changes):
        return self._replace(depth=self.depth + 1, scope=dict(self.scope), **changes)


class Maker:
    """Makes one script."""

    def __init__(self, seed, size):
        self.rng, self.size = random.Random(seed), size
        self.kinds = {}  # of each object
        self.handlers = {}  # of each guardian
        for guardian in range(1, self.rng.randint(*size.guardians) + 1):
            self.handlers[guardian] = {}
            for number in range(1, self.rng.randint(*size.objects) + 1):
                self.kinds[guardian, number] = self.rng.choice([*CONTENTS, "sum"])
        self.statements = self.calls = 0  # how many the client may still have
        self.names = 0

    def chance(self, of_hundred):
        return self.rng.randrange(100) < of_hundred

    def name(self, letter):
        self.names += 1
        return f"{letter}{self.names}"

    def script(self):
        count = self.rng.randint(*self.size.clients)
        clients = [self.client(self.size.calls // count) for _ in range(count)]
        guardians = [
            {"objects": [CONTENTS[kind] for (home, _), kind in self.kinds.items() if home == guardian], "handlers": handlers}
            for guardian, handlers in self.handlers.items()
        ]
        return {"guardians": guardians, "clients": clients}

    def client(self, calls):
        self.statements, self.calls = STATEMENTS, calls
        home = self.rng.choice(list(self.handlers))
        place = Place(home, {}, (), {}, {}, "anything", 0)
        return {"home": home, "body": self.top(place)}

    # ---- bodies

    def top(self, place):
        """The body of a client or of a nested top action, which takes objects first."""
        behind = [at for at in self.kinds if at > max(place.taken, default=(0, 0)) and self.kinds[at] != "sum"]
        some = sorted(self.rng.sample(behind, min(len(behind), self.rng.choice([0, 1, 1, 2, 3]))))
        own = {at: self.chance(75) for at in some}
        takes = [self.take(place, at, writes) for at, writes in own.items()]
        return takes + self.body(place._replace(own=own, shared=(), taken={**place.taken, **own}))

    def body(self, place):
        return [self.statement(place) for _ in range(self.rng.choice([1, 1, 2, 2, 3] if place.depth else [2, 3, 4]))]

    def statement(self, place):
        if self.chance(self.size.ends):
            return self.end(place)
        if place.depth == DEPTH or not self.statements or self.chance(40):
            return self.use(place)
        self.statements -= 1
        return self.rng.choice([self.call, self.call, self.coenter, self.coenter, self.nested, self.branch, self.repeat])(place)

    def end(self, place):
        """An abort or a return."""
        if place.gives is None or self.chance(50):
            return {"abort": True}
        if place.gives == "none" or place.gives == "anything" and self.chance(20):
            return {"return": None}
        return {"return": self.value(place, int)}

    # ---- values

    def value(self, place, sort):
        """An expression of the sort."""
        bound = [name for name, other in place.scope.items() if other == ("int" if sort is int else "text")]
        if bound and self.chance(50):
            return {"var": self.rng.choice(bound)}
        if sort is str:
            return self.rng.choice(["", "a", "two words"])
        if self.chance(15):
            return {self.rng.choice(["add", "sub"]): [self.value(place, int), self.value(place, int)]}
        return self.rng.choice([-2, 0, 1, 2, 3, 7, 9223372036854775807 if self.chance(10) else 5])

    def condition(self, place):
        truths = [name for name, sort in place.scope.items() if sort == "truth"]
        if truths and self.chance(60):
            return {"var": self.rng.choice(truths)}
        sort = self.rng.choice([int, int, str])
        return {"lt" if sort is int and self.chance(50) else "eq": [self.value(place, sort), self.value(place, sort)]}

    # ---- operations

    def take(self, place, at, writes):
        """Takes an object, by its first operation of the kind."""
        words, _ = (WRITES if writes else READS)[self.kinds[at]][0]
        operation = [at[1], *(1 if word is int else word for word in words)]
        if at[0] == place.home:
            return {"op": operation}
        name = f"{'put' if writes else 'see'}{at[1]}"
        self.handlers[at[0]][name] = {"params": [], "gives": "none", "body": [{"op": operation}]}
        return {"call": [at[0], name, []]}

    def use(self, place):
        """An operation on an object that may be used here, by a call if the object is elsewhere."""
        usable = [*place.own, *(at for at, kind in self.kinds.items() if kind == "sum")]
        if not usable:
            return {"if": [self.condition(place), [], []]}
        at = self.rng.choice(usable)
        if at[0] == place.home:
            return self.operation(place, at, place.own.get(at, True))
        return self.called(place, at[0], lambda inner: [self.operation(inner, at, place.own.get(at, True))])

    def operation(self, place, at, writes):
        words, sort = self.rng.choice(READS[self.kinds[at]] + (WRITES[self.kinds[at]] * 2 if writes else []))
        arguments = [self.value(place, word) if isinstance(word, type) else word for word in words]
        return self.bound(place, {"op": [at[1], *arguments]}, sort)

    def bound(self, place, statement, sort):
        """The statement, which may bind its reply and may have a body for signals."""
        signals = self.signals(place) if self.chance(50) else {}
        names = [name for name, other in place.scope.items() if other == sort]
        if names and self.chance(50):
            signals["into"] = self.rng.choice(names)
        elif sort and not signals:
            signals["into"] = self.name("v")
            place.scope[signals["into"]] = sort
        return {**statement, **signals}

    def signals(self, place):
        return {"signals": self.body(place.within()) if place.depth < DEPTH and self.chance(50) else []}

    # ---- statements with bodies

    def call(self, place):
        return self.called(place, self.rng.choice(list(self.handlers)), self.body)

    def called(self, place, guardian, made):
        """A call of a new handler, if there may be one more."""
        if not self.calls:
            return {"if": [self.condition(place), [], []]}
        self.calls -= 1
        params = [(self.name("p"), self.rng.choice([int, int, str])) for _ in range(self.rng.choice([0, 0, 1, 2]))]
        arguments = [self.value(place, sort) for _, sort in params]
        params = [[name, "int" if sort is int else "text"] for name, sort in params]
        gives = self.rng.choice(["int", "none"])
        inner = place.within(home=guardian, gives=gives)._replace(scope=dict(params))
        body = made(inner)
        name = self.name("h")
        ends = [{"return": self.value(inner, int)}] if gives == "int" else []
        self.handlers[guardian][name] = {"params": params, "gives": gives, "body": body + ends}
        return self.bound(place, {"call": [guardian, name, arguments]}, "int" if gives == "int" else None)

    def coenter(self, place):
        count = self.rng.choice([1, 2, 2, 2, 3, 4])
        parts = [{at: False for at, writes in place.own.items() if not writes} for _ in range(count)]
        written = [at for at, writes in place.own.items() if writes and at != place.shared]
        self.rng.shuffle(written)
        shared = written.pop() if written and self.chance(70) else ()
        for at in written:
            self.rng.choice(parts)[at] = True
        return {"coenter": [self.arm(place, {**part, **({shared: True} if shared else {})}, shared) for part in parts]}

    def arm(self, place, own, shared):
        if self.chance(25):
            return {"arm": "top", "body": self.top(place.within(gives=None))}
        inner = place.within(own=own, shared=shared)
        takes = [self.take(inner, shared, True)] if shared else []
        return {"arm": "sub", "body": takes + self.body(inner)}

    def nested(self, place):
        signals = self.signals(place) if self.chance(40) else {}
        body = self.top(place.within(gives=None))
        written = [at for at, writes in place.taken.items() if writes]
        if written and self.chance(15):
            body.append(self.take(place, self.rng.choice(written), True))
        return {"topaction": body, **signals}

    def branch(self, place):
        return {"if": [self.condition(place), self.body(place.within()), self.body(place.within()) if self.chance(50) else []]}

    def repeat(self, place):
        return {"repeat": [self.rng.randint(0, 3), self.body(place.within())]}


def script_of(seed, size=USUAL):
    return Maker(seed, size).script()


if __name__ == "__main__":
    if len(sys.argv) != 2 and sys.argv[2:] != ["large"]:
        sys.exit(__doc__)
    print(json.dumps(script_of(int(sys.argv[1]), LARGE if sys.argv[2:] else USUAL)))
