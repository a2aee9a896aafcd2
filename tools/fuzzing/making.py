"""Random collections, scripts and options: small ones, in which much is alike, so that queries select and indexes serve."""

import dataclasses
import json

NAMES = ["a", "b", "aa", "é", "", "a'b", "length", "\u2028", "😀"]
STRINGS = ["a", "ab", "aab", "b", "", "é", "😀", "a\nb", "1"]
NUMBERS = ["0", "-0", "1", "1.0", "10e-1", "2", "-1", "100", "1e2", "12345678901234567890", "12345678901234567891", "0.1", "1E+2"]
PATTERNS = ["a", "a*", "a+b?", "(a|b){1,2}", "[a-b]*", "[^a]", ".", "\\p{L}+", "\\P{Lu}", "a{2}", "a{0,1}b", "(a", "a**", "", "[é-ü]|😀"]
COMPARISONS = ["==", "!=", "<", "<=", ">", ">="]


@dataclasses.dataclass(frozen=True)
class Case:
    """What the programs are asked: the lines of a collection, the commands of a script, and what jpgrep is to find. `around` says how many
    lines before and after a selected one are shown where `shown` is "around"."""

    is_sequence: bool
    lines: tuple
    commands: tuple
    conditions: tuple
    each: bytes
    query: bytes
    shown: str
    is_inverted: bool
    most: int
    around: tuple


def value(rng, depth):
    """The text of a value."""
    kind = rng.randrange(9 if depth else 6)
    if kind < 2:
        return rng.choice(NUMBERS)
    if kind < 4:
        return json.dumps(rng.choice(STRINGS), ensure_ascii=rng.random() < 0.3)
    if kind < 6:
        return rng.choice(["true", "false", "null", "[]", "{}"])
    blank = rng.choice(["", "", " "])
    if kind == 6:
        return "[" + ("," + blank).join(value(rng, depth - 1) for _ in range(rng.randrange(4))) + "]"
    names = rng.sample(NAMES, rng.randrange(4)) + (["a"] if rng.random() < 0.03 else [])
    members = [json.dumps(name, ensure_ascii=rng.random() < 0.3) + ":" + blank + value(rng, depth - 1) for name in names]
    return "{" + ("," + blank).join(members) + "}"


def broken(rng, text):
    """A text with one byte deleted, doubled or changed."""
    at = rng.randrange(len(text) + 1)
    return rng.choice([text[:at] + text[at + 1:], text[:at] + text[at:at + 1] + text[at:], text[:at] + bytes([rng.randrange(256)]) + text[at + 1:]])


def line(rng):
    """The bytes of a line, which is mostly a text."""
    if rng.random() < 0.05:
        return rng.choice([b"", b" ", b"\t\r", b"x", b"[1,2", b'"\\ud800"', b"1e1234567890123456", b"\xff", b"[" * 513 + b"]" * 513])
    text = value(rng, rng.randrange(4)).encode()
    made = broken(rng, text) if rng.random() < 0.05 else text
    return made.replace(b"\n", b" ").replace(b"\x1e", b" ")


def literal(rng):
    return rng.choice([rng.choice(NUMBERS), repr(rng.choice(["a", "ab", "b", "é"])), "true", "false", "null"])


def name(rng):
    """A selector of a name, between brackets."""
    text = json.dumps(rng.choice(NAMES), ensure_ascii=False)
    return text if rng.random() < 0.5 else "'%s'" % text[1:-1].replace("'", "\\'")


def segment(rng, depth):
    kind = rng.randrange(8)
    dots = ".." if rng.random() < 0.2 else "."
    if kind < 3:
        return dots + rng.choice(["a", "b", "aa", "é", "*"])
    selectors = [selector(rng, depth) for _ in range(rng.choice([1, 1, 1, 2, 3]))]
    return (".." if dots == ".." else "") + "[" + rng.choice([",", " , "]).join(selectors) + "]"


def selector(rng, depth):
    kind = rng.randrange(7 if depth else 5)
    if kind < 2:
        return name(rng)
    if kind == 2:
        return str(rng.randrange(-3, 4))
    if kind == 3:
        return "*"
    if kind == 4:
        bounds = [rng.choice(["", str(rng.randrange(-3, 4))]) for _ in range(3)]
        return ":".join(bounds[:rng.choice([2, 3])])
    return "?" + expression(rng, depth - 1)


def path(rng, depth, origin=None):
    return (origin or rng.choice("@@@$")) + "".join(segment(rng, depth) for _ in range(rng.randrange(3)))


def singular(rng):
    return rng.choice("@@@$") + "".join(rng.choice([".a", ".b", "['a']", "[0]", "[-1]", ".aa"]) for _ in range(rng.randrange(3)))


def comparable(rng, depth):
    kind = rng.randrange(6)
    if kind < 2:
        return literal(rng)
    if kind < 4:
        return singular(rng)
    return rng.choice(["length(%s)" % singular(rng), "count(%s)" % path(rng, depth), "value(%s)" % path(rng, depth)])


def basic(rng, depth):
    kind = rng.randrange(6)
    if kind < 2:
        return path(rng, depth)
    if kind == 2:
        pattern = repr(rng.choice(PATTERNS))
        return "%s(%s,%s)" % (rng.choice(["match", "search"]), singular(rng), pattern)
    if kind == 3 and depth:
        return "(" + expression(rng, depth - 1) + ")"
    return comparable(rng, depth) + rng.choice(COMPARISONS) + comparable(rng, depth)


def expression(rng, depth):
    parts = [("!" if rng.random() < 0.1 else "") + basic(rng, depth) for _ in range(rng.choice([1, 1, 2, 3]))]
    return rng.choice(["&&", " || "]).join(parts)


def query(rng, origin="$"):
    """The bytes of a query, which is mostly good."""
    made = path(rng, 2, origin).encode()
    return broken(rng, made).replace(b"\n", b" ") if rng.random() < 0.05 else made


def command(rng, count):
    kind = rng.randrange(12)
    if kind < 6:
        return b"query " + query(rng)
    if kind == 6:
        return b"index $" + singular(rng)[1:].encode()
    if kind == 7:
        return b"drop $" + singular(rng)[1:].encode()
    if kind == 8:
        return b"append " + line(rng)
    if kind == 9:
        return b"replace %d " % rng.randrange(count + 2) + line(rng)
    return rng.choice([b"check", b"indexes", b"check ", b"query", b"explain", b"nothing"])


def case(rng):
    """A random case."""
    lines = tuple(line(rng) for _ in range(rng.randrange(8)))
    commands = tuple(command(rng, len(lines)) for _ in range(rng.randrange(1, 7)))
    conditions = tuple(expression(rng, 2).encode() for _ in range(rng.choice([0, 1, 1, 2])))
    is_sequence, each = rng.random() < 0.2, query(rng) if rng.random() < 0.3 else b""
    asked = query(rng, rng.choice("$@") if each else "$")
    most = rng.randrange(1, 5) if rng.random() < 0.2 else 2 ** 64 - 1
    return Case(is_sequence, lines, commands, conditions, each, asked, rng.choice(["line", "values", "count", "around"]), rng.random() < 0.1,
                most, (rng.randrange(3), rng.randrange(3)))
