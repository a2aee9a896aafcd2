"""Random tables against what their lines say, for `jpgrep_examples.py`: the texts of their cells by the reader of CSV that Python has, and
what the cells have by a reader of quotes."""
import csv
import io
import json
import pathlib
import re

LITERAL = re.compile(r"null|true|false|-?(0|[1-9][0-9]*)([.][0-9]+)?([eE][-+]?[0-9]+)?")
LETTERS = {"t": "\t", "n": "\n", "r": "\r", "\\": "\\"}
NAMES = ("a", "b", "d e", "'", '"')
NUMBERS = ("0", "-0", "12.50", "1E400", "-1e-7", "0.10", "123456789012345678901234567890", "1e+05")
TEXTS = ("", "0", "-0", "01", "1.", ".5", "+1", "1e", "1e5", "-", "-1.5E+30", "1e99999999999999999", "true", "false", "null", "True", "nulls", "tru", " 1",
         "1 ", "1\n", "[", "{", "[1,2]", "{}", "[a", '{"a":1}', " [", "a,b", 'say "no"', '"', "\r", "=1+1", "é", "\u0661", "NaN", "Infinity", "0x10", "1_0")
FILES = ("lines", "1", "-1.5", "true", "null", "a,b", "[x", 'q"', "1e")


class Number(str):
    """A number by its text."""


NOTHING = object()


def random_text(dice):
    return "".join(dice.choice(("a", "é", ",", '"', "\t", "\n", "\r", "\\", " ", "\x01", "1", "[")) for _ in range(dice.randrange(6)))


def random_cell(dice):
    """A value as a line may spell it."""
    either = dice.random()
    if either < 0.2:
        return dice.choice(NUMBERS + ("true", "false", "null"))
    if either < 0.8:
        return json.dumps(dice.choice(TEXTS) if either < 0.6 else random_text(dice), ensure_ascii=dice.random() < 0.5)
    return json.dumps(dice.choice(([], {}, [1, 2], ["x", None], {"b": [True], "a": 'x,"y"'}, [[]], {"": ""})))


def random_line(dice):
    return "{" + ", ".join(f"{json.dumps(name)}: {random_cell(dice)}" for name in dice.sample(NAMES, dice.randrange(6))) + "}"


def values_of(line):
    """The values of a line by their names, where a number is its text."""
    plain, spelled = json.loads(line), json.loads(line, parse_int=Number, parse_float=Number)
    return {name: value if isinstance(value, Number) else plain[name] for name, value in spelled.items()}


def text_of(value):
    """The text of a cell with a value."""
    if value is NOTHING:
        return ""
    return str(value) if isinstance(value, str) else json.dumps(value, sort_keys=True, separators=(",", ":"), ensure_ascii=False)


def cells_of(text):
    """The rows of a text of CSV, each cell by whether it stands in quotes and its text."""
    rows, row, at = [], [], 0
    while at < len(text):
        quoted = text[at] == '"'
        if quoted:
            found = re.compile(r'"((?:[^"]|"")*)"').match(text, at)
            cell, at = found[1].replace('""', '"'), found.end()
        else:
            cell = re.compile(r"[^,\n]*").match(text, at)[0]
            at += len(cell)
        row.append((quoted, cell))
        if text[at] == "\n":
            rows.append(row)
            row = []
        elif text[at + 1:at + 2] in ("\n", ""):
            row.append((False, ""))
            rows, row, at = rows + [row], [], at + 1
        at += 1
    return rows


def may_be(cell, value):
    """Whether a cell that is read is one of a value: which kind of value a cell has is known, but where one in quotes begins with a bracket."""
    quoted, text = cell
    if text != text_of(value):
        return False
    if quoted and text[:1] in ("[", "{"):
        return isinstance(value, (list, dict)) or type(value) is str
    if quoted:
        return type(value) is str
    if text == "":
        return value is NOTHING
    if LITERAL.fullmatch(text):
        return isinstance(value, (Number, bool)) or value is None
    return type(value) is str


def table(number, dice, ended, check, room):
    """A table, by both readers."""
    file = dice.choice(FILES)
    lines = [random_line(dice) for _ in range(dice.randrange(6))]
    pathlib.Path(room, file).write_text("".join(line + "\n" for line in lines), "utf-8")
    columns = dice.sample(NAMES, dice.randrange(1, 6)) if dice.random() < 0.7 else dice.choices(NAMES, k=40)
    words = [word for name in columns for word in ("-e", f"$[{json.dumps(name)}]")] + ["-H", "-n", "--", file]
    stated = [[file, Number(place)] + [values_of(line).get(name, NOTHING) for name in columns] for place, line in enumerate(lines, 1)]
    text = ended(["--csv", *words], room)[0].decode()
    rows = cells_of(text)
    check(f"table {number} as it is read", len(rows), len(stated))
    for row, values in zip(rows, stated):
        check(f"a row of table {number}, {row} of {values}", len(row) == len(values) and all(map(may_be, row, values)), True)
    texts = [[text_of(value) for value in row] for row in stated]
    check(f"table {number} by Python", list(csv.reader(io.StringIO(text, newline=""))), texts)
    names = [f"c{place}" for place in range(len(columns))]
    named = ended(["--csv", "--names", ",".join(names), *words], room)[0].decode()
    check(f"table {number} with names", named, ",".join(["file", "line", *names]) + "\n" + text)
    tabbed = ended(["--tsv", *words], room)[0].decode().split("\n")[:-1]
    check(f"table {number} with tabs", [[re.sub(r"\\(.)", lambda found: LETTERS[found[1]], cell) for cell in row.split("\t")] for row in tabbed], texts)
