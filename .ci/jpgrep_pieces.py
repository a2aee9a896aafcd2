"""A plain model of the cut of a stream into JSON texts, or into the elements of its arrays, for `jpgrep_examples.py`."""
import json
import re

WHITE, BYTE_ORDER_MARK = b" \t\n\r", b"\xef\xbb\xbf"
STRING = rb'"(?:[^"\\]|\\.)*"'
# What tells the ends within brackets: a backslash escapes a quote outside strings too, and a quote alone opens a string without end.
TOKEN = re.compile(rb'\\["\\]|' + STRING + rb'|["\[\]{},]', re.DOTALL)


def past_white(text, at):
    """The first byte from there on that is no white space."""
    return len(text) - len(text[at:].lstrip(WHITE))


def deeper(token):
    """How many more brackets are open after a token."""
    return (token in (b"[", b"{")) - (token in (b"]", b"}"))


def text_end(text, start):
    """Where the JSON text that starts there ends, or None where it is not closed."""
    depth, first = 0, text[start:start + 1]
    if first == b'"':
        string = re.compile(STRING, re.DOTALL).match(text, start)
        return string and string.end()
    if first not in (b"[", b"{"):
        return re.compile(rb'[^ \t\n\r\[{"]+').match(text, start).end()
    for token in TOKEN.finditer(text, start):
        if token[0] == b'"':
            break
        depth += deeper(token[0])
        if depth == 0:
            return token.end()
    return None


def element_end(text, start):
    """Where the element that starts there ends, where reading goes on, and whether another one follows."""
    depth = 0
    for token in TOKEN.finditer(text, start):
        if token[0] == b'"':
            break
        if depth == 0 and token[0] in (b",", b"]", b"}"):
            return token.end() if token[0] == b"}" else token.start(), token.end(), token[0] == b","
        depth += deeper(token[0])
    return None, len(text), False


def pieces_of(text, are_elements):
    """The JSON texts of a stream, or the elements of its arrays, each from where to where; the end is None where it is not closed."""
    at = 0
    while (at := past_white(text, at)) < len(text):
        if not are_elements or text[at:at + 1] != b"[":
            end = text_end(text, at)
            yield at, end
            at = len(text) if end is None else end
            continue
        at = past_white(text, at + 1)
        goes_on = text[at:at + 1] != b"]"
        if not goes_on:
            at += 1
        while goes_on:
            at = past_white(text, at)
            end, after, goes_on = element_end(text, at)
            yield at, end
            at = after


def fault_of(piece):
    """The word of the first fault of a piece that is closed, or None, where no surrogate, long exponent or depth is at fault."""
    def unequal(members):
        if len(dict(members)) < len(members):
            raise KeyError
        return dict(members)
    try:
        json.loads(piece.decode(), object_pairs_hook=unequal)
    except UnicodeDecodeError:
        return b"utf8"
    except KeyError:
        return b"duplicate" if is_json(piece.decode()) else b"grammar"
    except ValueError:
        return b"grammar"
    return None


def is_json(text):
    try:
        json.loads(text)
    except ValueError:
        return False
    return True


TOKENS = (b"[", b"]", b"{", b"}", b",", b":", b'"', b"\\", b'\\"', b" ", b"\n", b"\r", b"1", b"true", b"nul", b'"a"', b'"a":', b'{"a":1}', b"[1,",
          b"[]", b"{}", b'"\\\\"', b'"],"', b"\xff", b"\x00", b"\x1e", BYTE_ORDER_MARK, b"x" * 63, b'"' + b"y" * 61 + b'"', b" " * 64, b"\\" * 33)
LIKELY = (6, 6, 4, 5, 8, 3, 2, 1, 1, 3, 4, 1, 6, 2, 1, 4, 3, 5, 3, 2, 2, 2, 2, 1, 1, 1, 1, 1, 2, 1, 1)


def random_stream(dice):
    """Bytes that are some texts, and broken ones."""
    return b"".join(dice.choices(TOKENS, LIKELY, k=dice.randrange(60)))


def answers_of(stream, name, are_elements):
    """The rows of the accepted pieces of a stream, what is told of the refused ones, and the rows of these with their reasons, all with
    their numbers."""
    text = stream.removeprefix(BYTE_ORDER_MARK)
    rows = told = refused = b""
    for number, (start, end) in enumerate(pieces_of(text, are_elements), 1):
        piece = text[start:end]
        fault = b"truncated" if end is None else fault_of(piece)
        if fault is None:
            rows += b"%d:%s\n" % (number, piece.strip(WHITE).replace(b"\n", b"").replace(b"\r", b""))
        else:
            told += b"jpgrep: %s:%d: %s, from line %d\n" % (name, number, fault, text.count(b"\n", 0, start) + 1)
            refused += b"%d:%s\t%s\n" % (number, fault, piece)
    return rows, told, refused
