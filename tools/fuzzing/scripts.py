"""What jpq answers to a script, and jpgrep to its options, over a collection."""

from . import queries, texts
from .meaning import Nodes, path_text

MOST_INDEXES = 16


class Collection:
    """The lines of a collection, each with its root node, None where it is blank, or the word of its fault."""

    def __init__(self, collection, is_sequence):
        self.is_sequence, self.indexes = is_sequence, []
        self.lines = [self.judged(text) for text in texts.lines(collection, is_sequence)]
        self.front = b"\x1e" if is_sequence else b""

    def judged(self, text):
        try:
            return text, texts.read(text, self.is_sequence)
        except texts.Refused as refused:
            return text, str(refused)

    def refusals(self):
        return [b"%s%d\t!%s\n" % (self.front, n, root.encode()) for n, (_, root) in enumerate(self.lines, 1) if isinstance(root, str)]

    def answered(self, command):
        """What a command line answers."""
        word, space, argument = command.partition(b" ")
        calls = {b"query": self.query, b"index": self.index, b"drop": self.drop, b"append": self.append, b"replace": self.replace}
        if word in calls and space:
            return calls[word](argument)
        plain = {b"indexes": self.listed, b"check": self.check}
        return plain[command]() if command in plain else b"error: command\n"

    def query(self, text):
        try:
            segments = queries.parse(text)
        except queries.Refused as refused:
            return b"error: query %s\n" % str(refused).encode()
        rows, count = [], 0
        for n, (line, root) in enumerate(self.lines, 1):
            if isinstance(root, str):
                rows.append(b"%s%d\t!%s\n" % (self.front, n, root.encode()))
            elif root:
                found = Nodes(root).select(segments)
                count += len(found)
                rows += [b"%s%d\t%s\t%s\n" % (self.front, n, path_text(path).encode(), line[node.start:node.end])
                         for path, node in found]
        return b"".join(rows) + b"= %d\n" % count

    @staticmethod
    def steps(text):
        """The steps of an index, or None."""
        try:
            segments = queries.parse(text)
        except queries.Refused:
            return None
        if not queries.is_singular(("query", "$", segments, "")):
            return None
        return tuple(selectors[0][1] for _, selectors in segments)

    def index(self, text):
        steps = self.steps(text)
        if steps is None:
            return b"error: index path\n"
        if steps in self.indexes:
            return b"error: index exists\n"
        if len(self.indexes) == MOST_INDEXES:
            return b"error: index limit\n"
        self.indexes.append(steps)
        selected = [Nodes(root).select(queries.parse(text)) for _, root in self.lines if root and not isinstance(root, str)]
        return b"indexed %d\n" % sum(map(len, selected))

    def drop(self, text):
        steps = self.steps(text)
        if steps is None:
            return b"error: index path\n"
        if steps not in self.indexes:
            return b"error: index missing\n"
        self.indexes.remove(steps)
        return b"dropped\n"

    def listed(self):
        return b"".join(path_text(steps).encode() + b"\n" for steps in self.indexes) + b"= %d\n" % len(self.indexes)

    def check(self):
        refused = self.refusals()
        blank = sum(root is None for _, root in self.lines)
        return b"".join(refused) + b"= %d lines, %d refused, %d blank\n" % (len(self.lines), len(refused), blank)

    def is_no_line(self, text):
        return self.is_sequence and b"\x1e" in text

    def append(self, text):
        if self.is_no_line(text):
            return b"error: separator\n"
        self.lines.append(self.judged(text))
        return b"appended %d\n" % len(self.lines)

    def replace(self, argument):
        number, space, text = argument.partition(b" ")
        if not space or not number.isdigit() or number.startswith(b"0"):
            return b"error: command\n"
        if int(number) > len(self.lines):
            return b"error: line\n"
        if self.is_no_line(text):
            return b"error: separator\n"
        self.lines[int(number) - 1] = self.judged(text)
        return b"replaced %d\n" % int(number)

    def run(self, script):
        """What the commands of a script answer, line by line."""
        commands = script.removesuffix(b"\n").split(b"\n") if script else []
        return b"".join(self.answered(command.removesuffix(b"\r")) for command in commands if command.removesuffix(b"\r"))

    def filtered(self, conditions, each, query, shown, is_inverted=False, most=2 ** 64 - 1, around=(0, 0)):
        """What jpgrep writes of the lines, or of the nodes of a query in them, for which each condition holds and the query selects a
        node: whole lines, values, these with their paths, how many there are, or whole lines and those around them."""
        rows, count, selected = [], 0, set()
        for n, (line, root) in enumerate(self.lines, 1):
            if not root or isinstance(root, str):
                continue
            nodes = Nodes(root)
            for asked in [nodes.root] if each is None else nodes.select(each):
                holds = all(nodes.holds(condition, asked) for condition in conditions)
                found = nodes.select(query[1], asked if query[0] == "@" else None) if holds else []
                if bool(found) == is_inverted or count == most:
                    continue
                count += 1
                selected.add(n)
                if shown == "values" or each is not None:
                    fronts = [path_text(path).encode() + b"\t" if shown == "values" else b"" for path, _ in found]
                    rows += [b"%d:%s%s\n" % (n, front, line[node.start:node.end]) for front, (_, node) in zip(fronts, found)]
                else:
                    rows.append(b"%d:%s\n" % (n, line))
        rows = self.around(selected, *around) if shown == "around" else rows
        return b"%d\n" % count if shown == "count" else b"".join(rows)

    def around(self, selected, before, after):
        """The rows of selected lines and of those around them, after whose numbers stands a hyphen. Where lines are left out between two,
        there is a row of two hyphens."""
        shown = [n for n in range(1, len(self.lines) + 1) if any(at - before <= n <= at + after for at in selected)]
        for n, last in zip(shown, [None, *shown]):
            if last and last + 1 < n:
                yield b"--\n"
            yield b"%d%s%s\n" % (n, b":" if n in selected else b"-", self.lines[n - 1][0])
