"""I-Regexps (RFC 9485): which places of a text a pattern reaches."""

import re
import unicodedata

SPECIAL = set("()*+.?[\\]{|}")
SINGLE = re.compile(r"\\([(-+\-.?\[-^nrt{-}])", re.DOTALL)
CATEGORY = re.compile(r"\\([pP])\{(L[lmotu]?|M[cen]?|N[dlo]?|P[cdefios]?|Z[lps]?|S[ckmo]?|C[cfno]?)\}")
COUNTS = re.compile(r"\{([0-9]+)(?:(,)([0-9]+)?)?\}")
LETTERS = {"n": "\n", "r": "\r", "t": "\t"}
MOST_COUNT = 999_999_999
MOST_PARENTHESES = 256


class NoPattern(Exception):
    """The text is no I-Regexp."""


class Parser:
    def __init__(self, text):
        self.text, self.at = text, 0

    def peek(self):
        return self.text[self.at:self.at + 1]

    def choice(self):
        branches = [self.branch()]
        while self.peek() == "|":
            self.at += 1
            branches.append(self.branch())
        return ("choice", branches)

    def branch(self):
        pieces = []
        while self.peek() and self.peek() not in "|)":
            pieces.append(self.quantified(self.atom()))
        return ("branch", pieces)

    def quantified(self, atom):
        sign = self.peek()
        if sign and sign in "*+?":
            self.at += 1
            return ("times", atom, int(sign == "+"), 1 if sign == "?" else None)
        if sign != "{":
            return atom
        found = COUNTS.match(self.text, self.at)
        if not found:
            raise NoPattern
        self.at = found.end()
        least = int(found[1])
        most = least if not found[2] else int(found[3]) if found[3] else None
        if least > MOST_COUNT or (most or 0) > MOST_COUNT or (most is not None and most < least):
            raise NoPattern
        return ("times", atom, least, most)

    def single(self):
        """An escaped character, or None."""
        found = SINGLE.match(self.text, self.at)
        if found:
            self.at = found.end()
            return LETTERS.get(found[1], found[1])
        return None

    def category(self):
        found = CATEGORY.match(self.text, self.at)
        if not found:
            return None
        self.at = found.end()
        return ("category", found[2], found[1] == "P")

    def atom(self):
        sign = self.peek()
        if sign == "(":
            self.at += 1
            inner = self.choice()
            if self.peek() != ")":
                raise NoPattern
            self.at += 1
            return inner
        if sign == "[":
            self.at += 1
            return self.bracketed()
        if sign == ".":
            self.at += 1
            return ("class", True, [("range", "\n", "\n"), ("range", "\r", "\r")])
        if sign == "\\":
            item = self.category()
            if item:
                return ("class", False, [item])
            letter = self.single()
            if letter is None:
                raise NoPattern
            return ("class", False, [("range", letter, letter)])
        if sign in SPECIAL:
            raise NoPattern
        self.at += 1
        return ("class", False, [("range", sign, sign)])

    def member(self):
        """A character of a class, or None."""
        if self.peek() == "\\":
            return self.single()
        if not self.peek() or self.peek() in "-[]":
            return None
        self.at += 1
        return self.text[self.at - 1]

    def bracketed(self):
        is_negated = self.peek() == "^" and self.text[self.at:self.at + 2] != "^]"
        self.at += is_negated
        items = []
        if self.peek() == "-":
            self.at += 1
            items.append(("range", "-", "-"))
        while self.peek() not in ("]", "-", ""):
            item = self.category()
            if not item:
                low = self.member()
                if low is None:
                    raise NoPattern
                high = low
                if self.peek() == "-" and self.text[self.at + 1:self.at + 2] not in ("]", ""):
                    self.at += 1
                    high = self.member()
                    if high is None or high < low:
                        raise NoPattern
                item = ("range", low, high)
            items.append(item)
        if self.peek() == "-":
            self.at += 1
            items.append(("range", "-", "-"))
        if self.peek() != "]" or not items:
            raise NoPattern
        self.at += 1
        return ("class", is_negated, items)


def parse(text):
    """The tree of a pattern; raises NoPattern."""
    if text.count("(") > MOST_PARENTHESES:
        raise NoPattern
    parser = Parser(text)
    tree = parser.choice()
    if parser.at != len(text):
        raise NoPattern
    return tree


def has(items, character):
    """Whether a character is among the items of a class."""
    for item in items:
        if item[0] == "range":
            if item[1] <= character <= item[2]:
                return True
        elif unicodedata.category(character).startswith(item[1]) != item[2]:
            return True
    return False


def ends(tree, text, starts):
    """The places at which a part may end that begins at some places."""
    kind = tree[0]
    if kind == "class":
        return {at + 1 for at in starts if at < len(text) and has(tree[2], text[at]) != tree[1]}
    if kind == "choice":
        return set().union(*(ends(branch, text, starts) for branch in tree[1]))
    if kind == "branch":
        for piece in tree[1]:
            starts = ends(piece, text, starts)
        return starts
    _, part, least, most = tree
    for _ in range(least):
        again = ends(part, text, starts)
        if again == starts:
            break
        starts = again
    reached, turns = set(starts), 0
    while starts and (most is None or turns < most - least):
        starts = ends(part, text, starts) - reached
        reached |= starts
        turns += 1
    return reached


def matches(pattern, text):
    """Whether the whole text is of the pattern's language."""
    return len(text) in ends(pattern, text, {0})


def occurs(pattern, text):
    """Whether some part of the text is."""
    return bool(ends(pattern, text, set(range(len(text) + 1))))
