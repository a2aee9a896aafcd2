"""Random tallies against a count of their values in Python, for `jpgrep_examples.py`: each value is spelled in one of many ways, and stands
here with its canonical text."""
import collections
import json
import pathlib

# Canonical texts, and how a line may spell values that are equal.
SPELLINGS = {
    "1": ("1", "1.0", "1e0", "10e-1", "1.000", "0.1E+1"),
    "0": ("0", "-0", "0.0", "-0.0e5", "0E-9"),
    "-1": ("-1", "-1.0", "-10e-1"),
    "10": ("10", "1e1", "10.0"),
    "24.9": ("24.9", "24.90", "249e-1", "2.49E1"),
    "1234567890123456789": ("1234567890123456789", "1234567890123456789.0"),
    "1234567890123456788": ("1234567890123456788",),
    "true": ("true",),
    "false": ("false",),
    "null": ("null",),
    '""': ('""',),
    '"x"': ('"x"', '"\\u0078"'),
    '"1"': ('"1"', '"\\u0031"'),
    '"a\\tb\\n"': ('"a\\tb\\n"', '"\\u0061\\u0009b\\u000a"', '"a\\u0009b\\n"'),
    '"\\"\\\\/"': ('"\\"\\\\/"', '"\\u0022\\u005c\\/"'),
    '"\u00e9"': ('"\u00e9"', '"\\u00e9"'),
    '"\U0001d11e"': ('"\U0001d11e"', '"\\ud834\\udd1e"'),
    '"e\u0301"': ('"e\u0301"', '"e\\u0301"'),
    "[]": ("[]", "[ ]"),
    "{}": ("{}", "{ }"),
    "[1,0]": ("[1,0]", "[1.0, -0]", "[ 1e0,0.0 ]"),
    "[0,1]": ("[0,1]", "[-0, 10e-1]"),
    '{"a":1,"b":{"c":[],"d":"x"}}': ('{"a":1,"b":{"c":[],"d":"x"}}', '{"b":{"d":"\\u0078","c":[ ]},"\\u0061":1.0}'),
    '{"a":"1","b":null}': ('{"b":null,"a":"1"}', '{"a":"\\u0031","b":null}'),
}
ESCAPES = str.maketrans({"\t": "\\t", "\n": "\\n", "\r": "\\r", "\\": "\\\\"})


def rows_of(tuples, text_of):
    """The rows of a tally: the most frequent first, and then by the canonical texts, as bytes."""
    counts = collections.Counter(tuple(text.encode() for text in cells) for cells in tuples)
    return "".join(f"{count}\t" + "\t".join(text_of(cell.decode()) for cell in cells) + "\n"
                   for cells, count in sorted(counts.items(), key=lambda entry: (-entry[1], entry[0])))


def plain(text):
    """A string by its characters, escaped as between tabs, and any other value by its text."""
    return (json.loads(text) if text.startswith('"') else text).translate(ESCAPES)


def tally(number, dice, ended, check, room):
    """A tally of one query and one of two, by a count."""
    some = dice.sample(sorted(SPELLINGS), dice.randrange(1, 8))
    lines, singles, pairs = [], [], []
    for _ in range(dice.randrange(30)):
        drawn = [dice.choice(some) if dice.random() < 0.8 else "" for _ in range(2)]
        listed = [dice.choice(some) for _ in range(dice.randrange(4))]
        spelled = [f'"{name}": {dice.choice(SPELLINGS[text])}' for name, text in zip("ab", drawn) if text]
        spelled.append('"list": [' + ", ".join(dice.choice(SPELLINGS[text]) for text in listed) + "]")
        dice.shuffle(spelled)
        lines.append("{" + ", ".join(spelled) + "}")
        singles += [[text] for text in listed]
        pairs.append(drawn)
    part = dice.randrange(len(lines) + 1)
    for name, its in (("first", lines[:part]), ("second", lines[part:])):
        pathlib.Path(room, name).write_text("".join(line + "\n" for line in its), "utf-8")
    for words, text_of in (([], str), (["-r"], plain)):
        one = ended(["--tally", *words, "$.list[*]", "first", "second"], room)[0].decode()
        check(f"tally {number} of one query {words}", one, rows_of(singles, text_of))
        two = ended(["--tally", *words, "-e", "$.a", "-e", "$.b", "first", "second"], room)[0].decode()
        check(f"tally {number} of two {words}", two, rows_of(pairs, text_of))
