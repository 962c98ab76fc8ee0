"""What objects hold after a run: a plain reading of docs/DEFINITIONS.md, by the events alone. It is a module of
stop-argus and of soak: contents_of(setup, events)."""
import json

from spellings import MOST_INDEX, MOST_ITEMS

WRAP = 2**64


# ---- operations


def words_of(text):
    """The words of an operation. A value is an int or a text; a text that is a value has its quotes."""
    while text:
        end = json.JSONDecoder().raw_decode(text)[1] if text.startswith('"') else len(text.partition(" ")[0])
        yield text[:end]
        text = text[end + 1 :]


def after_array(array, name, words):
    items, low = list(array["items"]), array["low"]
    end = low + len(items)
    values = list(map(json.loads, words))
    if name == "store" and low <= values[0] < end:
        items[values[0] - low] = values[1]
    elif name == "addh" and len(items) < MOST_ITEMS and end <= MOST_INDEX:
        items.append(values[0])
    elif name == "addl" and len(items) < MOST_ITEMS and low > -MOST_INDEX:
        items, low = [values[0], *items], low - 1
    elif name == "remh":
        items = items[:-1]
    elif name == "reml" and items:
        items, low = items[1:], low + 1
    return {**array, "items": items, "low": low}


def after_counter(number, name, words):
    if name == "put":
        return int(words[0])
    return (number + int(words[0]) + WRAP // 2) % WRAP - WRAP // 2 if name == "add" else number


def after(content, operation):
    """What an object holds after an operation that was granted."""
    name, *words = words_of(operation)
    [(kind, held)] = content.items()
    if kind == "array":
        held = after_array(held, name, words)
    elif kind == "counter":
        held = after_counter(held, name, words)
    elif name == "set":
        held = {**held, words[0]: json.loads(words[1])}
    elif name == "change":
        held = {**held, "tag": words[0], "value": json.loads(words[1])}
    return {kind: held}


# ---- runs


def around(name):
    """The names of the action and of its ancestors, the outermost first."""
    numbers = name.split(".")
    return [".".join(numbers[:length]) for length in range(1, len(numbers) + 1)]


def committed_operations(events):
    """The object and the text of each operation that is committed for good, in serial order."""
    closed, committed, made = {}, set(), []
    for number, event in enumerate(events):
        kind, action, *rest = event.step.split(" ", 3)
        if kind in ("close", "commit"):
            closed[action] = number
        if kind in ("commit", "decide"):
            committed.add(action)
        if kind == "op":
            made.append((action, number, *rest))
    kept = [it for it in made if committed.issuperset(around(it[0]))]
    placed = sorted(([closed[name] for name in around(action)] + [number], *rest) for action, number, *rest in kept)
    return [(at, operation) for _place, at, operation in placed]


def contents_of(setup, events):
    """What each object holds for a new top action after the accepted events of a run, by its number in text."""
    held = {
        f"{home}/{number}": content
        for home, guardian in enumerate(setup["guardians"], 1)
        for number, content in enumerate(guardian["objects"], 1)
    }
    for at, operation in committed_operations(events):
        held[at] = after(held[at], operation)
    return held
