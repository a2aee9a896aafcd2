"""JSONPath queries (RFC 9535): the tree of a query, or why it is refused."""

import re

from .texts import number

BLANKS = " \t\n\r"
INTEGER = re.compile(r"0|-?[1-9][0-9]*")
NUMBER = re.compile(r"(?:-?[1-9][0-9]*|-?0)(?:\.[0-9]+)?(?:[eE][-+]?[0-9]+)?")
SHORTHAND = re.compile("[A-Za-z_\x80-\U0010ffff][A-Za-z0-9_\x80-\U0010ffff]*")
FUNCTION = re.compile(r"[a-z][a-z_0-9]*(?=\()")
OPERATOR = re.compile(r"==|!=|<=|>=|<|>")
STRINGS = {quote: re.compile(
    "%s((?:[^\x00-\x1f'\"\\\\]|%s|\\\\(?:[bfnrt/\\\\%s]|u(?:[0-9A-CEFa-cef][0-9A-Fa-f]{3}|[dD][0-7][0-9A-Fa-f]{2}"
    "|[dD][89abAB][0-9A-Fa-f]{2}\\\\u[dD][c-fC-F][0-9A-Fa-f]{2})))*)%s" % (quote, other, quote, quote))
    for quote, other in (("'", '"'), ('"', "'"))}
ESCAPE = re.compile(r"\\(?:u[dD]([89abAB]..)\\u[dD]([c-fC-F]..)|u(....)|(.))", re.DOTALL)
LETTERS = {"b": "\b", "f": "\f", "n": "\n", "r": "\r", "t": "\t"}
WORDS = {"true": True, "false": False, "null": None}
MOST_INTEGER = 2 ** 53 - 1
MOST_BYTES, MOST_BRACKETS = 65_535, 512
# The kinds of the parameters of each function, and that of its result.
FUNCTIONS = {"length": (["value"], "value"), "count": (["nodes"], "value"), "value": (["nodes"], "value"),
             "match": (["value", "value"], "logical"), "search": (["value", "value"], "logical")}


class Refused(Exception):
    """The query is refused: the word of the first fault that it has."""


def characters(spelled):
    """What a string literal spells between its quotes."""
    def one(found):
        if found[1]:
            return chr(0x10000 + ((int("d" + found[1], 16) - 0xD800) << 10) + int("d" + found[2], 16) - 0xDC00)
        return chr(int(found[3], 16)) if found[3] else LETTERS.get(found[4], found[4])
    return ESCAPE.sub(one, spelled)


class Parser:
    """Reads a query, and notes the faults that count only where the grammar is kept."""

    def __init__(self, text):
        self.text, self.at, self.faults = text, 0, set()

    def blanks(self):
        while self.at < len(self.text) and self.text[self.at] in BLANKS:
            self.at += 1

    def find(self, pattern):
        found = pattern.match(self.text, self.at)
        if found:
            self.at = found.end()
        return found

    def take(self, sign):
        is_next = self.text.startswith(sign, self.at)
        self.at += len(sign) * is_next
        return is_next

    def expect(self, sign):
        if not self.take(sign):
            raise Refused("syntax")

    def listed(self, read, close):
        """What is separated by commas, up to a sign, with blanks anywhere between."""
        found = [read()]
        while True:
            self.blanks()
            if self.take(close):
                return found
            self.expect(",")
            self.blanks()
            found.append(read())

    def segments(self):
        """All segments that follow."""
        found = []
        while True:
            before = self.at
            self.blanks()
            segment = self.segment()
            if segment is None:
                self.at = before
                return found
            found.append(segment)

    def segment(self):
        if self.take(".."):
            return "descendant", self.bracketed() if self.take("[") else [self.short()]
        if self.take("."):
            return "child", [self.short()]
        return ("child", self.bracketed()) if self.take("[") else None

    def short(self):
        if self.take("*"):
            return ("wildcard",)
        found = self.find(SHORTHAND)
        if not found:
            raise Refused("syntax")
        return "name", found[0]

    def bracketed(self):
        self.blanks()
        return self.listed(self.selector, "]")

    def string(self):
        for pattern in STRINGS.values():
            found = self.find(pattern)
            if found:
                return characters(found[1])
        return None

    def integer(self):
        found = self.find(INTEGER)
        if not found:
            return None
        if abs(int(found[0])) > MOST_INTEGER:
            self.faults.add("integer")
        return int(found[0])

    def selector(self):
        if self.take("*"):
            return ("wildcard",)
        if self.take("?"):
            self.blanks()
            return "filter", self.disjunction()
        name = self.string()
        if name is not None:
            return "name", name
        return self.index_or_slice()

    def index_or_slice(self):
        bounds = [self.integer()]
        after = self.at
        self.blanks()
        if not self.take(":"):
            self.at = after
            if bounds[0] is None:
                raise Refused("syntax")
            return "index", bounds[0]
        self.blanks()
        bounds.append(self.integer())
        after = self.at
        self.blanks()
        if self.take(":"):
            before = self.at
            self.blanks()
            bounds.append(self.integer())
            self.at = self.at if bounds[2] is not None else before
        else:
            self.at = after
        return "slice", bounds + [None] * (3 - len(bounds))

    def parts(self, kind, sign, read):
        found = [read()]
        while True:
            before = self.at
            self.blanks()
            if not self.take(sign):
                self.at = before
                return found[0] if len(found) == 1 else (kind, found)
            self.blanks()
            found.append(read())

    def disjunction(self):
        return self.parts("or", "||", self.conjunction)

    def conjunction(self):
        return self.parts("and", "&&", self.basic)

    def parenthesis(self):
        self.blanks()
        inner = self.disjunction()
        self.blanks()
        self.expect(")")
        return inner

    def basic(self):
        if self.text[self.at:self.at + 1] == "!":
            self.at += 1
            self.blanks()
            return "not", self.parenthesis() if self.take("(") else self.test(self.operand())
        if self.take("("):
            return self.parenthesis()
        left = self.operand()
        before = self.at
        self.blanks()
        operator = self.find(OPERATOR)
        if not operator:
            self.at = before
            return self.test(left)
        self.blanks()
        right = self.operand()
        for side in left, right:
            if side[0] == "query" and not is_singular(side, as_comparable=True):
                raise Refused("syntax")
        return "compare", left, operator[0], right

    @staticmethod
    def test(operand):
        if operand[0] == "literal":
            raise Refused("syntax")
        return "test", operand

    def operand(self):
        """A query, a call or a literal."""
        start = self.at
        if self.text[self.at:self.at + 1] in ("@", "$"):
            self.at += 1
            origin, places = self.text[start], self.at
            segments = self.segments()
            return "query", origin, segments, self.text[places:self.at]
        found = self.find(FUNCTION)
        if found:
            return self.call(found[0])
        value = self.string()
        if value is not None:
            return "literal", value
        found = self.find(NUMBER)
        if found:
            value, is_long = number(found[0].encode())
            if is_long:
                self.faults.add("number")
            return "literal", value
        for word, value in WORDS.items():
            if self.take(word):
                return "literal", value
        raise Refused("syntax")

    def call(self, name):
        self.expect("(")
        self.blanks()
        arguments = [] if self.take(")") else self.listed(self.argument, ")")
        if name not in FUNCTIONS:
            self.faults.add("function")
        return "call", name, arguments

    def argument(self):
        """A literal, a query or a call by itself, and else a logical expression."""
        start, faults = self.at, set(self.faults)
        try:
            found = self.operand()
            self.blanks()
            if self.text[self.at:self.at + 1] in (",", ")"):
                return found
        except Refused:
            pass
        self.at, self.faults = start, faults
        return "condition", self.disjunction()


STEPS = re.compile(r"""(?:[ \t\n\r]*(?:\.[^\s\[.*]+|\[(?:'(?:[^'\\]|\\.)*'|"(?:[^"\\]|\\.)*"|-?[0-9]+)\]))*""", re.DOTALL)


def is_singular(query, as_comparable=False):
    """Whether a query is of names and indexes alone. A comparable has no blanks within its brackets either."""
    singular = all(kind == "child" and len(selectors) == 1 and selectors[0][0] in ("name", "index") for kind, selectors in query[2])
    return singular and (not as_comparable or STEPS.fullmatch(query[3]) is not None)


def kind_of(operand):
    """The kind of what an operand gives."""
    if operand[0] == "call":
        return FUNCTIONS[operand[1]][1]
    return {"literal": "value", "query": "nodes", "condition": "logical"}[operand[0]]


def fits(argument, kind):
    """Whether an argument may stand for a parameter of a kind (RFC 9535, section 2.4.3)."""
    given = kind_of(argument)
    if kind == "value":
        return given == "value" or (argument[0] == "query" and is_singular(argument))
    return given == kind or (kind == "logical" and given == "nodes")


def check(part):
    """Raises Refused where a call within the part is not well typed."""
    if isinstance(part, (list, tuple)):
        if part and part[0] == "call":
            parameters = FUNCTIONS[part[1]][0]
            if len(parameters) != len(part[2]) or not all(map(fits, part[2], parameters)):
                raise Refused("types")
        if part and part[0] == "test" and part[1][0] == "call" and kind_of(part[1]) == "value":
            raise Refused("types")
        if part and part[0] == "compare" and any(side[0] == "call" and kind_of(side) != "value" for side in (part[1], part[3])):
            raise Refused("types")
        for inner in part:
            check(inner)


def _whole(text, read):
    """What a text is read as; raises Refused with the first fault that it has."""
    if len(text) > MOST_BYTES or text.count(b"(") + text.count(b"[") > MOST_BRACKETS:
        raise Refused("size")
    try:
        parser = Parser(text.decode())
    except UnicodeDecodeError:
        raise Refused("syntax") from None
    tree = read(parser)
    if parser.at != len(parser.text):
        raise Refused("syntax")
    for fault in ("integer", "number", "function"):
        if fault in parser.faults:
            raise Refused(fault)
    check(tree)
    return tree


def parse(text, origin="$"):
    """The segments of a query, or of one that begins at a node."""
    def read(parser):
        parser.expect(origin)
        return parser.segments()
    return _whole(text, read)


def parse_condition(text):
    """The tree of a condition: a logical expression with blanks at will around it."""
    def read(parser):
        parser.blanks()
        tree = parser.disjunction()
        parser.blanks()
        return tree
    return _whole(text, read)
