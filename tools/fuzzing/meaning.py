"""What a query selects (RFC 9535): nodes with their places, in the order of the nodelist."""

from . import patterns
from .texts import Number

NOTHING = object()
ESCAPES = {"\b": "\\b", "\t": "\\t", "\n": "\\n", "\f": "\\f", "\r": "\\r", "'": "\\'", "\\": "\\\\"}


def path_text(path):
    """A normalized path (RFC 9535, section 2.7)."""
    def step(key):
        if isinstance(key, int):
            return f"[{key}]"
        return "['%s']" % "".join(ESCAPES.get(c, c if c >= " " else "\\u%04x" % ord(c)) for c in key)
    return "$" + "".join(map(step, path))


class Nodes:
    """The meaning of queries over one text."""

    def __init__(self, root):
        self.root = ((), root)

    def select(self, segments, start=None):
        """The nodes that segments select, from the root or from another node."""
        found = [start or self.root]
        for kind, selectors in segments:
            if kind == "descendant":
                found = [inner for node in found for inner in self.subtree(node)]
            found = [child for node in found for selector in selectors for child in self.selected(selector, node)]
        return found

    @staticmethod
    def children(node):
        return [(node[0] + (child.key,), child) for child in node[1].children]

    def subtree(self, node):
        waiting, found = [node], []
        while waiting:
            found.append(waiting.pop())
            waiting += reversed(self.children(found[-1]))
        return found

    def selected(self, selector, node):
        children, kind = self.children(node), node[1].kind
        if selector[0] == "wildcard":
            return children
        if selector[0] == "name":
            return [child for child in children if kind == "object" and child[1].key == selector[1]]
        if selector[0] == "filter":
            return [child for child in children if self.holds(selector[1], child)]
        if kind != "array":
            return []
        if selector[0] == "index":
            at = selector[1] + len(children) * (selector[1] < 0)
            return children[at:at + 1] if at >= 0 else []
        return [children[at] for at in places(selector[1], len(children))]

    def holds(self, expression, node):
        """Whether a logical expression holds where a node is the current one."""
        kind = expression[0]
        if kind == "or":
            return any(self.holds(part, node) for part in expression[1])
        if kind == "and":
            return all(self.holds(part, node) for part in expression[1])
        if kind == "not":
            return not self.holds(expression[1], node)
        if kind == "test":
            operand = expression[1]
            return self.called(operand, node) if operand[0] == "call" else bool(self.queried(operand, node))
        return compared(self.value(expression[1], node), expression[2], self.value(expression[3], node))

    def queried(self, query, node):
        return self.select(query[2], self.root if query[1] == "$" else node)

    def value(self, operand, node):
        """The value of a comparable or of an argument: Nothing where it selects none."""
        if operand[0] == "literal":
            return plain(operand[1])
        if operand[0] == "call":
            return self.called(operand, node)
        found = self.queried(operand, node)
        return found[0][1] if found else NOTHING

    def called(self, call, node):
        """What a function gives (RFC 9535, section 2.4)."""
        _, name, arguments = call
        if name in ("count", "value"):
            found = self.queried(arguments[0], node)
            if name == "count":
                return plain(Number(len(found), 0))
            return found[0][1] if len(found) == 1 else NOTHING
        values = [self.value(argument, node) for argument in arguments]
        if name == "length":
            return length(values[0])
        if any(value is NOTHING or value.kind != "string" for value in values):
            return False
        try:
            pattern = patterns.parse(values[1].value)
        except patterns.NoPattern:
            return False
        return (patterns.matches if name == "match" else patterns.occurs)(pattern, values[0].value)


class Plain:
    """A value that stands in a query."""

    def __init__(self, value, kind):
        self.value, self.kind, self.children = value, kind, []


def plain(value):
    kinds = {str: "string", bool: "boolean", type(None): "null", Number: "number"}
    return Plain(value, kinds[type(value)])


def length(value):
    """The length of a string in scalars, of an array or an object in children; Nothing of any other value."""
    if value is NOTHING or value.kind not in ("string", "array", "object"):
        return NOTHING
    return plain(Number(len(value.value if value.kind == "string" else value.children), 0))


def places(bounds, count):
    """The places of a slice in an array of `count` elements (RFC 9535, section 2.3.4.2)."""
    first, last, step = bounds
    step = 1 if step is None else step

    def normal(bound):
        return bound if bound >= 0 else count + bound
    if step == 0:
        return []
    if step > 0:
        lower = min(max(normal(0 if first is None else first), 0), count)
        return range(lower, min(max(normal(count if last is None else last), 0), count), step)
    upper = min(max(normal(count - 1 if first is None else first), -1), count - 1)
    return range(upper, min(max(normal(-count - 1 if last is None else last), -1), count - 1), step)


def equal(left, right):
    if left is NOTHING or right is NOTHING or left.kind != right.kind:
        return left is right
    if left.kind == "array":
        return len(left.children) == len(right.children) and all(map(equal, left.children, right.children))
    if left.kind == "object":
        members = {child.key: child for child in right.children}
        return len(left.children) == len(members) and all(
            child.key in members and equal(child, members[child.key]) for child in left.children)
    return left.value == right.value


def less(left, right):
    if left is NOTHING or right is NOTHING or left.kind != right.kind or left.kind not in ("number", "string"):
        return False
    return left.value < right.value


def compared(left, operator, right):
    """Whether a comparison holds (RFC 9535, section 2.3.5.2.2)."""
    return {"==": lambda: equal(left, right), "!=": lambda: not equal(left, right),
            "<": lambda: less(left, right), "<=": lambda: less(left, right) or equal(left, right),
            ">": lambda: less(right, left), ">=": lambda: less(right, left) or equal(left, right)}[operator]()
