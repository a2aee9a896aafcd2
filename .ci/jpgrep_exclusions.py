"""Compares the book's table of options that exclude one another with what jpgrep answers to each two of them.

    jpgrep_exclusions.py JPGREP BOOK

Of each two options the table says whether they go together, and jpgrep refuses exactly the others.
"""
import itertools
import re
import subprocess
import sys

HEAD = "| Option | Goes without |"
# The options of which two are tried, with their arguments. Where several have one meaning here, one is tried.
OPTIONS = {
    "-e": ["$"], "-w": ["@"], "--each": ["$"], "--in": ["@", "/dev/null"], "--not-in": ["@", "/dev/null"], "-v": [], "--refused": [],
    "-o": [], "-p": [], "-r": [], "-j": [], "--csv": [], "--tsv": [], "--header": [], "--names": ["a"], "--paths": [], "--fold": ["9"],
    "--tally": [], "-n": [], "-H": [], "-h": [], "-Z": [], "-A": ["1"], "-B": ["1"], "-C": ["1"], "-c": [], "-l": [], "-L": [], "-q": [],
    "-m": ["1"], "-s": [], "--color": [], "--json": [], "--elements": [], "--seq": [],
}
# With `--each` it is another option that `-v` goes without.
EACH = {("--each", "-v", "-e"): True, ("--each", "-v", "-o"): False}
REFUSALS = "cannot be used with", "are used with", "is used with"


def rows(book):
    """The rows of the table, as two texts each."""
    with open(book, encoding="utf-8") as file:
        lines = file.read().split("\n")
    first = lines.index(HEAD) + 2
    return [line.strip("| ").split(" | ") for line in itertools.takewhile(lambda it: it.startswith("|"), lines[first:])]


def options(text):
    return re.findall(r"`(-[-\w]+)`", text)


def told(book):
    """The pairs that exclude one another, and of each option that wants another one those of which it wants one."""
    pairs, wanted, others = set(), {}, []
    for left, right in rows(book):
        ones = options(left)
        if right.startswith("only with"):
            wanted.update((one, set(options(right))) for one in ones)
            continue
        others = options(right.partition(";")[0]) + (others if right.startswith("these") else [])
        if len(ones) == len(others) and "," in left:
            pairs |= {frozenset(pair) for pair in zip(ones, others)}
            continue
        pairs |= {frozenset((one, other)) for one in ones for other in others}
        if "one another" in right or "one the other" in right:
            pairs |= {frozenset(pair) for pair in itertools.combinations(ones, 2)}
    return pairs, wanted


def is_refused(program, *ones):
    words = [word for one in ones for word in (one, *OPTIONS[one])]
    run = subprocess.run([program, *words, "$", "/dev/null"], stdin=subprocess.DEVNULL, capture_output=True, text=True)
    return run.returncode == 2 and any(words in run.stderr for words in REFUSALS)


def main():
    program, book = sys.argv[1:]
    pairs, wanted = told(book)
    expectations = dict(EACH)
    for ones in itertools.combinations(OPTIONS, 2):
        lacks = any(one in wanted and not wanted[one] & set(ones) for one in ones)
        expectations[ones] = frozenset(ones) in pairs or lacks
    passed = failed = 0
    for ones, expected in expectations.items():
        if is_refused(program, *ones) == expected:
            passed += 1
        else:
            failed += 1
            print(f"{' '.join(ones)}: the book says {'refused' if expected else 'taken'}, and it is not")
    print(f"exclusions: {passed} passed, {failed} failed, 0 skipped")
    return 1 if failed else 0


sys.exit(main())
