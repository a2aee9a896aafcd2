"""JSON texts (RFC 8259): the nodes of a text, or why it is refused."""

import re

WHITE = b" \t\n\r"
NUMBER = re.compile(rb"-?(?:0|[1-9][0-9]*)(?:\.([0-9]+))?(?:[eE]([+-]?[0-9]+))?")
STRING = re.compile(rb'"(?:[^"\\\x00-\x1f]|\\(?:["\\/bfnrt]|u[0-9A-Fa-f]{4}))*"')
ESCAPE = re.compile(r'\\(?:u([0-9A-Fa-f]{4})|(.))')
WORDS = {b"true": True, b"false": False, b"null": None}
LETTERS = {"b": "\b", "f": "\f", "n": "\n", "r": "\r", "t": "\t"}
MOST_DEPTH = 512
MOST_EXPONENT_DIGITS = 15


class Refused(Exception):
    """The text is refused: the word of the first fault that it has."""


class Number:
    """A number: digits times ten to a power, so that nothing is rounded."""

    def __init__(self, digits, power):
        while digits and digits % 10 == 0:
            digits, power = digits // 10, power + 1
        self.digits, self.power = (digits, power) if digits else (0, 0)

    def __eq__(self, other):
        return isinstance(other, Number) and (self.digits, self.power) == (other.digits, other.power)

    def __lt__(self, other):
        if (self.digits < 0) != (other.digits < 0) or not self.digits or not other.digits:
            return self.digits < other.digits
        return self._is_nearer(other) if self.digits > 0 else other._is_nearer(self)

    def _is_nearer(self, other):
        """Whether it is nearer to zero than another of its sign."""
        own, others = str(abs(self.digits)), str(abs(other.digits))
        if len(own) + self.power != len(others) + other.power:
            return len(own) + self.power < len(others) + other.power
        length = max(len(own), len(others))
        return own.ljust(length, "0") < others.ljust(length, "0")


def number(text):
    """The number that bytes spell, and whether its exponent has more digits than are read."""
    found = NUMBER.fullmatch(text)
    fraction, exponent = found[1] or b"", found[2] or b"0"
    is_long = len(exponent.lstrip(b"+-").lstrip(b"0")) > MOST_EXPONENT_DIGITS
    whole = text[:found.start(1) - 1] if found[1] is not None else re.split(b"[eE]", text)[0]
    return Number(int(whole + fraction), 0 if is_long else int(exponent) - len(fraction)), is_long


class Node:
    """A value where it stands in its text: `key` is its name or index, `children` are the nodes of its members or elements."""

    def __init__(self, kind, key, start):
        self.kind, self.key, self.start = kind, key, start
        self.end, self.value, self.children = None, None, []


def characters(text):
    """The characters of a string between its quotation marks, and whether a surrogate is alone among its escapes."""
    spelled = ESCAPE.sub(lambda found: chr(int(found[1], 16)) if found[1] else LETTERS.get(found[2], found[2]), text)
    joined = re.sub("[\ud800-\udbff][\udc00-\udfff]", lambda pair: chr(
        0x10000 + ((ord(pair[0][0]) - 0xD800) << 10) + ord(pair[0][1]) - 0xDC00), spelled)
    return joined, re.search("[\ud800-\udfff]", joined) is not None


class Reader:
    """Reads one text, and notes the faults that count only where the grammar is kept."""

    def __init__(self, text):
        self.text, self.at, self.faults = text, 0, set()

    def white(self):
        while self.at < len(self.text) and self.text[self.at] in WHITE:
            self.at += 1

    def take(self, byte):
        """Whether the next byte after white space is this one, which is passed then."""
        self.white()
        is_next = self.text[self.at:self.at + 1] == byte
        self.at += is_next
        return is_next

    def expect(self, byte):
        if not self.take(byte):
            raise Refused("grammar")

    def string(self):
        found = STRING.match(self.text, self.at)
        if not found:
            raise Refused("grammar")
        self.at = found.end()
        value, is_lone = characters(found[0][1:-1].decode())
        if is_lone:
            self.faults.add("surrogate")
        return value

    def scalar(self, node):
        for word, value in WORDS.items():
            if self.text.startswith(word, self.at):
                self.at += len(word)
                node.kind, node.value = word.decode() if value is None else "boolean", value
                return
        found = NUMBER.match(self.text, self.at)
        if not found:
            raise Refused("grammar")
        self.at = found.end()
        node.kind, (node.value, is_long) = "number", number(found[0])
        if is_long:
            self.faults.add("number")

    def items(self, node, close, read):
        """What stands in an array or an object, which was opened, up to its closing bracket."""
        if self.take(close):
            return
        while True:
            self.white()
            read(node)
            if self.take(close):
                return
            self.expect(b",")

    def element(self, node, depth):
        node.children.append(self.value(len(node.children), depth + 1))

    def member(self, node, depth):
        name = self.string()
        self.expect(b":")
        if any(child.key == name for child in node.children):
            self.faults.add("duplicate")
        node.children.append(self.value(name, depth + 1))

    def value(self, key, depth):
        self.white()
        node = Node(None, key, self.at)
        byte = self.text[self.at:self.at + 1]
        if byte in (b"[", b"{"):
            self.at += 1
            if depth == MOST_DEPTH:
                self.faults.add("depth")
            if byte == b"[":
                node.kind = "array"
                self.items(node, b"]", lambda node: self.element(node, depth))
            else:
                node.kind = "object"
                self.items(node, b"}", lambda node: self.member(node, depth))
        elif byte == b'"':
            node.kind, node.value = "string", self.string()
        else:
            self.scalar(node)
        node.end = self.at
        return node


def read(text, is_in_sequence=False):
    """The root node of a text, None where it is blank; raises Refused with the first fault that it has."""
    if not text.strip(WHITE):
        return None
    try:
        text.decode()
    except UnicodeDecodeError:
        raise Refused("utf8") from None
    reader = Reader(text)
    root = reader.value(None, 0)
    reader.white()
    if reader.at != len(text):
        raise Refused("grammar")
    if is_in_sequence and root.kind in ("number", "boolean", "null") and root.end == len(text):
        raise Refused("truncated")
    for fault in ("depth", "surrogate", "number", "duplicate"):
        if fault in reader.faults:
            raise Refused(fault)
    return root


def lines(collection, is_sequence):
    """The texts of a collection, by lines or as a text sequence (RFC 7464); None where it is no sequence."""
    collection = collection.removeprefix(b"\xef\xbb\xbf")
    if not is_sequence:
        return collection.split(b"\n")[:-1] + ([collection.split(b"\n")[-1]] if collection.split(b"\n")[-1] else [])
    front, *texts = collection.split(b"\x1e")
    return None if front.strip(WHITE) else [text for text in texts if text]
