"""Asks questions at n, 2 n and 4 n of what they may cost by, and compares the processor's time and the memory that they take.

    limits_of_cost.py JPQ JPGREP FOLDER

FOLDER is for files. A run of twice the size takes at most 2.3 times the time of the one before, and it ends as well where the program
may have no more addresses than 60 times its input and its words, twice what it writes, and what it takes by itself: what costs the
square of its input does neither. Other work on the machine makes a run longer, and never shorter: where a time is too long, the
question is asked again up to six times, and the least time of each size counts.
"""
import json
import os
import random
import resource
import subprocess
import sys

PROGRAM, FILTER, FOLDER = sys.argv[1:]
DOUBLED, LEAST, TURNS = 2.3, 0.05, 6
SIZES = 1, 2, 4
OWN, TIMES = 16 << 20, 60  # bytes


class Checks:
    passed = failed = 0

    def check(self, name, is_right, told):
        if is_right:
            self.passed += 1
            return
        self.failed += 1
        print(f"{name}: NOT AS STATED: {told}")


def written(name, text):
    path = os.path.join(FOLDER, name)
    with open(path, "w", encoding="utf-8") as file:
        file.write(text)
    return path


def ran(words, most):
    """The status of a run that may have so many bytes of addresses, its processor seconds, and how many bytes it wrote."""
    limit = lambda: most and resource.setrlimit(resource.RLIMIT_AS, (most, most))
    rows = os.path.join(FOLDER, "rows")
    with open(rows, "wb") as file:
        run = subprocess.Popen(words, stdin=subprocess.DEVNULL, stdout=file, stderr=subprocess.DEVNULL, preexec_fn=limit)
        _, status, used = os.wait4(run.pid, 0)
    return os.waitstatus_to_exitcode(status), used.ru_utime + used.ru_stime, os.path.getsize(rows)


def features(count):
    """One document of many nodes that are asked one by one."""
    some = [{"pop": number * 7919 % 1000003, "name": f"n{number}", "text": "x" * 200} for number in range(count)]
    return json.dumps({"pattern": "n.*", "features": some}) + "\n"


def wide(count):
    """The same, with as many members at the root as there are nodes."""
    return json.dumps({**{f"m{number}": number for number in range(count)}, "features": [{"pop": number} for number in range(count)]}) + "\n"


def chains(count, depth):
    """Objects in one another, each with a name of its own, below as many names."""
    lines = []
    for chain in range(count):
        names = "".join('{"c%dd%d":' % (chain, level) for level in range(depth))
        lines.append(names + "1" + "}" * depth)
    return "\n".join(lines) + "\n"


def asked_of(function, pattern):
    """Whether each text of the document matches."""
    return ["-c", "-e", f'$[?{function}(@, "{pattern}")]']


def twice(unit, middle="", end=""):
    """A text of a unit, something in its middle where a pattern may start anew, as often the unit, and an end."""
    return lambda count: json.dumps([unit * count + middle + unit * count + end]) + "\n"


LINE = "end of a long line of text, as it may come in a log, that has more than 63 states"
RANDOM = random.Random(3)
WORDS = ["".join(RANDOM.choice("abcdefghijklmnopqrstuvwxyz") for _ in range(RANDOM.randint(4, 7))) for _ in range(4000)]
OR = "|".join(WORDS)
# Patterns of more than 63 states and without a count, each with a text of two starts that are far from each other.
FAR = {
    "(.*start)?([a-z]+;)*" + LINE: ("it;", "start", LINE),
    "(.*start)?([a-z]+;|[0-9]+;)*" + LINE: ("it;7;", "start", LINE),
    "(.*x|cd)*" + "e?" * 70: ("cd", "x", ""),
    "(.*x|.*z|cd)*" + "e?" * 70: ("cd", "x", ""),
    "(.*y)?(ab)*" + "c?" * 70: ("ab", "y", ""),
    "(.*y)?(ab)+" + "(c|d)?" * 40: ("ab", "y", "cd"),
    "(.*y)?(a*b?)*" + "c?" * 70: ("ab", "y", ""),
    "(.*y)?((a|b)(b|a))*" + "c?" * 70: ("ab", "y", ""),
    "(.*y)?((ab)*(ba)*)*" + "c?" * 70: ("abba", "y", ""),
    "((.*y)?(ab)*)*" + "c?" * 70: ("ab", "y", ""),
    "(.*y.*)?(ab|cd)*" + "c?" * 70: ("abcd", "y", ""),
    "(.*y)?(ab(cd)?)*" + "c?" * 70: ("abcd", "y", ""),
    "(.*y)?(ab|a|b)*" + "c?" * 70: ("ab", "y", ""),
    "(.*y)?([^y]b)*" + "c?" * 70: ("ab", "y", ""),
    "(.*y)?(\\\\p{L}\\\\p{L})*" + "c?" * 70: ("ab", "y", ""),
    "(.*y)?(ab)*" + "(c|d|e)*" * 25: ("ab", "y", "cde"),
    "(ab)*y?(ab)*" + "c?" * 70: ("ab", "y", ""),
    "(.*y)?(" + "ab" * 40 + ")*": ("ab" * 40, "y", ""),
    "(.*y)?(a(b(a(b)*)*)*)*" + "c?" * 70: ("ab", "y", ""),
    "(|.*y)(|ab)(ab)*" + "c?" * 70: ("ab", "y", ""),
}
SPELLED = {"(%s)": "match", "((%s)|a|b)*x": "match", "(%s|a|b)*": "match", "((%s)|a|b)*y": "search", "(x(%s))*z?": "search"}
EACH = ["-c", "--each", "$.features[*]"]
# What each asks: its words, by how much it is asked, and the text that it is asked of. A list of values stands in the file `list`.
SHAPES = {
    "nodes beside the last one": (5000, features, lambda n: [*EACH, "-w", "@.pop > $.features[-1].pop"]),
    "nodes, and a descent from the root": (5000, features, lambda n: [*EACH, "-w", "$..zz"]),
    "nodes, and the root beside itself": (5000, features, lambda n: [*EACH, "-w", "$==$"]),
    "nodes, and how long the root is": (5000, features, lambda n: [*EACH, "-w", "length($)==@"]),
    "nodes, and how many nodes there are": (5000, features, lambda n: [*EACH, "-w", "count($..*) > 1 && @.pop > 3"]),
    "nodes, and a pattern at the root": (5000, features, lambda n: [*EACH, "-w", "match(@.name, $.pattern)"]),
    "nodes, and a query from the root": (5000, features, lambda n: [*EACH, "-e", "$..zz"]),
    "nodes, and nodes of a query from the root": (5000, features, lambda n: [*EACH, "-o", "-e", "$.features[?@.pop == 7]"]),
    "nodes, and a list for the root": (5000, features, lambda n: [*EACH, "--in", "$", os.path.join(FOLDER, "list")]),
    "nodes, and a column of the root's last": (5000, features, lambda n: ["--csv", *EACH[1:], "-e", "$.features[-1].pop", "-e", "@.pop"]),
    "nodes, and a column that the root lacks": (5000, wide, lambda n: ["--csv", *EACH[1:], "-e", "$.zz", "-e", "@.pop"]),
    "nodes, and many columns of the root": (2000, wide, lambda n: ["--csv", *EACH[1:], *(it for k in range(40) for it in ("-e", f"$.m{k}"))]),
    "nodes, counted by what the root lacks": (5000, wide, lambda n: ["--tally", *EACH[1:], "-e", "$.zz", "-e", "@.pop"]),
    "nodes, coloured": (5000, features, lambda n: ["--color=always", "-m", "1", *EACH[1:], "-e", "$.features[-1].pop"]),
    "folds that follow one another": (120, lambda n: chains(60, n), lambda n: ["--paths", "--fold", "2"]),
    "folds of many names": (320, lambda n: chains(n, 100), lambda n: ["--paths", "--fold", "20"]),
    "paths of deep objects": (20, lambda n: chains(n, 480), lambda n: ["--paths"]),
    "paths of wide objects": (5000, lambda n: json.dumps({f"m{k}": {f"n{k}": k} for k in range(n)}) + "\n", lambda n: ["--paths", "--fold", "1000000"]),
    "steps of a query": (8000, lambda n: "1\n", lambda n: ["-c", "$" + ".*" * n]),
    "descents of a query": (4000, lambda n: "1\n", lambda n: ["-c", "$" + "..*" * n]),
    "twenty queries": (1000, lambda n: "1\n", lambda n: ["-c", *(it for _ in range(20) for it in ("-e", "$" + ".*.*" * n))]),
}
SHAPES |= {f"a text of two starts under {pattern[:40]}": (4_000, twice(*text), lambda n, pattern=pattern: asked_of("match", pattern)) for pattern, text in FAR.items()}
SHAPES |= {f"{function} of many words as {spelled}": (2_000, twice("".join(WORDS[:3]), WORDS[-1]), lambda n, spelled=spelled, function=function: asked_of(function, spelled % OR)) for spelled, function in SPELLED.items()}


def is_slow(seconds):
    """Whether twice the size takes more than 2.3 times the time."""
    return any(after > DOUBLED * before for before, after in zip(seconds, seconds[1:]))


def main():
    checks = Checks()
    written("list", "1\n\"x\"\n")
    for name, (count, text, words) in SHAPES.items():
        asked, seconds = [], []
        for size in (count * times for times in SIZES):
            lines = written(f"lines{len(asked)}", text(size))
            asked.append([FILTER, *words(size), lines])
            status, taken, rows = ran(asked[-1], None)
            seconds.append(max(taken, LEAST))
            checks.check(f"{name}, {size}", status in (0, 1), f"status {status}")
            most = OWN + TIMES * (os.path.getsize(lines) + sum(len(word) for word in asked[-1])) + 2 * rows
            again = ran(asked[-1], most)[0]
            checks.check(f"memory of {name}, {size}", again == status, f"status {again} with {most} bytes, and {rows} are written")
        for _ in range(1, TURNS):
            if not is_slow(seconds):
                break
            seconds = [max(LEAST, min(least, ran(words, None)[1])) for least, words in zip(seconds, asked)]
        checks.check(f"seconds of {name}", not is_slow(seconds), ", ".join(f"{it:.2f}" for it in seconds))
    print(f"limits of cost: {checks.passed} passed, {checks.failed} failed, 0 skipped")
    return 1 if checks.failed else 0


sys.exit(main())
