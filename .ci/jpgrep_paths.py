"""Random lines against a survey of their paths in Python, for `jpgrep_examples.py`, in two orders of the lines and at several folds, of
the lines as a whole and of nodes of theirs."""
import json
import pathlib

KINDS = ("null", "boolean", "number", "string", "array", "object")
ESCAPES = {"\b": "\\b", "\t": "\\t", "\n": "\\n", "\f": "\\f", "\r": "\\r", "'": "\\'", "\\": "\\\\"}
NAMES = ("a", "b", "id", "x y", "", "'", "\\", "\t\x01", "\u00e9", "\uffff", "\U0001d11e", "A", "10", "9", "[*]", "u1", "u2", "u3")
# How a line may spell a name.
SPELLED = {"a": ('"a"', '"\\u0061"'), "\u00e9": ('"\u00e9"', '"\\u00e9"'), "\U0001d11e": ('"\U0001d11e"', '"\\ud834\\udd1e"')}
FOLDS = (1, 2, 5)


def kind_of(value):
    """The number of the kind of a value."""
    types = {type(None): 0, bool: 1, int: 2, float: 2, str: 3, list: 4, dict: 5}
    return types[type(value)]


def nodes_of(value):
    """The nodes of a value: the steps to each, where that to an element is None, and its kind."""
    yield (), kind_of(value)
    inner = value.items() if isinstance(value, dict) else ((None, it) for it in value) if isinstance(value, list) else ()
    for step, child in inner:
        for path, kind in nodes_of(child):
            yield (step, *path), kind


def folded_paths(nodes, fold, begin=()):
    """The nodes with their paths folded, from the top down. A node is its line, the steps that are left, and its kind; `begin` has the
    steps that are folded: the order of each, and its text."""
    for line, left, kind in nodes:
        if not left:
            yield line, begin, kind
    elements = [(line, left[1:], kind) for line, left, kind in nodes if left and left[0] is None]
    if elements:
        yield from folded_paths(elements, fold, (*begin, (0, "")))
    names = sorted({left[0] for _, left, _ in nodes if left and left[0] is not None})
    if len(names) > fold:
        members = [(line, left[1:], kind) for line, left, kind in nodes if left and left[0] is not None]
        yield from folded_paths(members, fold, (*begin, (2, "")))
        return
    for name in names:
        members = [(line, left[1:], kind) for line, left, kind in nodes if left and left[0] == name]
        yield from folded_paths(members, fold, (*begin, (1, name)))


def step_text(step):
    """The text of a step, whose names stand as in normalized paths (RFC 9535, section 2.7)."""
    order, name = step
    if order != 1:
        return "[*]" if order == 0 else "[**]"
    quoted = (ESCAPES.get(char) or (f"\\u{ord(char):04x}" if char < " " else char) for char in name)
    return "['" + "".join(quoted) + "']"


def places_of(value):
    """The values in a value, itself first: the steps to each, where that to an element is None, and the value."""
    yield (), value
    inner = value.items() if isinstance(value, dict) else ((None, it) for it in value) if isinstance(value, list) else ()
    for step, child in inner:
        for path, it in places_of(child):
            yield (step, *path), it


def children_of(value):
    """The children of a value, each with the step to it."""
    return list(value.items()) if isinstance(value, dict) else [(None, it) for it in value] if isinstance(value, list) else []


# Queries, and the nodes that they select, with the steps to each.
EACH = {
    "$": lambda value: [((), value)],
    "$.*": lambda value: [((step,), child) for step, child in children_of(value)],
    "$.*.*": lambda value: [((step, *more), it) for step, child in children_of(value) for (more, it) in [((s,), c) for s, c in children_of(child)]],
    "$..*": lambda value: list(places_of(value))[1:],
    "$..[?@.*]": lambda value: [(path, it) for path, it in list(places_of(value))[1:] if children_of(it)],
}


def survey_of(values, fold=1000, each="$"):
    """The rows of the survey of some values, each of a line, or of the nodes that a query selects in them."""
    nodes = [(line, (*begin, *path), kind) for line, value in enumerate(values) for begin, it in EACH[each](value) for path, kind in nodes_of(it)]
    found = {}
    for line, path, kind in folded_paths(nodes, fold):
        found.setdefault((path, kind), []).append(line)
    rows = []
    for (path, kind), lines in sorted(found.items()):
        told = "-" if any(order == 2 for order, _ in path) else len(set(lines))
        rows.append((str(told), str(len(lines)), "$" + "".join(map(step_text, path)), KINDS[kind]))
    return rows


def text_of(rows):
    return "".join("\t".join(row) + "\n" for row in rows)


def random_value(dice, names, depth):
    """A value, and how a line spells it."""
    if depth == 0 or dice.random() < 0.3:
        value = dice.choice((None, True, False, 0, -1.5, 1e3, "", "x", [], {}))
        return value, json.dumps(value)
    if dice.random() < 0.3:
        parts = [random_value(dice, names, depth - 1) for _ in range(dice.randrange(4))]
        return [value for value, _ in parts], "[" + ", ".join(text for _, text in parts) + "]"
    parts = {name: random_value(dice, names, depth - 1) for name in dice.sample(names, dice.randrange(min(len(names), 6) + 1))}
    members = (dice.choice(SPELLED.get(name, (json.dumps(name),))) + ":" + text for name, (_, text) in parts.items())
    return {name: value for name, (value, _) in parts.items()}, "{" + ",".join(members) + "}"


def paths(number, dice, ended, check, room):
    """A survey of random lines, in two orders."""
    names = dice.sample(NAMES, dice.randrange(1, len(NAMES)))
    drawn = [random_value(dice, names, dice.randrange(1, 6)) for _ in range(dice.randrange(12))]
    for fold in (*FOLDS, None):
        words = ["--paths"] if fold is None else ["--paths", "--fold", str(fold)]
        stated = text_of(survey_of([value for value, _ in drawn], fold or 1000))
        for turn in range(2):
            some = dice.sample(drawn, len(drawn)) if turn else drawn
            part = dice.randrange(len(some) + 1)
            for name, its in (("first", some[:part]), ("second", some[part:])):
                pathlib.Path(room, name).write_text("".join(text + "\n" for _, text in its), "utf-8")
            got = ended([*words, "first", "second"], room)[0].decode()
            check(f"paths {number} {words} in order {turn}", got, stated)
            each = dice.choice(list(EACH))
            got = ended([*words, "--each", each, "first", "second"], room)[0].decode()
            check(f"paths {number} {words} in order {turn}, of {each}", got, text_of(survey_of([value for value, _ in drawn], fold or 1000, each)))
