"""Random lines around selected lines, beside those of GNU grep, for `jpgrep_examples.py`. In each run jpgrep's question and grep's pattern
select the same lines, and neither colours anything in them."""
import os
import pathlib
import re
import subprocess

VALUES = (b'{"a":1}', b'{"a":[2,{}]}', b'{"b":1}', b'{"b":{"a":1}}', b"[1]", b'"x"')
OTHERS = (b"", b" \t", b"oops", b'{"a"', b'"\xff"')
# The words of jpgrep's question, those of grep's, and the lines of which both select the same.
QUESTIONS = (
    (("-s", "-w", "@.a"), ('^{"a":',), VALUES + OTHERS),
    (("-v", "$.a"), ("-v", '^{"a":'), VALUES),
    (("--refused",), ("-e", "^oops", "-e", '^{"a"$', "-e", b'^"\xff'), VALUES + OTHERS),
)
LETTERS = {"A": "after-context", "B": "before-context", "C": "context"}
# Without a colour for what matches.
ENVIRONMENT = {**os.environ, "LC_ALL": "C", "GREP_COLORS": "mt="}
NUMBERS = (0, 0, 1, 1, 1, 2, 2, 3, 5, 100)


def has_grep():
    """Whether `grep` is GNU grep from 3.5 on, whose -m shows each line after the last selected one, also where it matches."""
    told = subprocess.run(["grep", "--version"], capture_output=True, check=False).stdout
    found = re.match(rb"grep \(GNU grep\) (\d+)\.(\d+)", told)
    return bool(found) and (int(found[1]), int(found[2])) >= (3, 5)


def number_words(dice):
    """Some of -A, -B and -C, by letter or by word, with the number as the next argument or in the same one."""
    for letter in dice.choices(tuple(LETTERS), k=dice.randrange(1, 4)):
        number = str(dice.choice(NUMBERS))
        yield from dice.choice(([f"-{letter}", number], [f"-{letter}{number}"], [f"--{LETTERS[letter]}={number}"], [f"--{LETTERS[letter]}", number]))


def option_words(dice):
    """Options that mean the same to both."""
    words = [*number_words(dice)]
    if dice.random() < 0.4:
        words.append(f"-m{dice.randrange(5)}")
    for options in (("-n",), ("-H", "-h"), ("-Z",), ("--color=always",)):
        if dice.random() < 0.5:
            words.append(dice.choice(options))
    if dice.random() < 0.1:
        words.append(dice.choice(("-c", "-l", "-L", "-q")))
    return words


def random_text(dice, lines):
    """Some lines, the last of which may have no line feed."""
    text = b"".join(line + b"\n" for line in dice.choices(lines, k=dice.randrange(16)))
    return text.removesuffix(b"\n") if dice.random() < 0.2 and not text.endswith(b"\n\n") else text


def context(number, dice, ended, check, room):
    """Two random files, by jpgrep and by grep."""
    asked, grepped, lines = dice.choice(QUESTIONS)
    for name in ("first", "second"):
        pathlib.Path(room, name).write_bytes(random_text(dice, dice.sample(lines, dice.randrange(1, len(lines) + 1))))
    words = option_words(dice)
    files = dice.choice((["first"], ["first", "second"], ["second", "first", "first"]))
    run = subprocess.run(["grep", "-a", *words, *grepped, *files], cwd=room, env=ENVIRONMENT, capture_output=True, check=False)
    rows, _, status = ended([*words, *asked, *files], room)
    check(f"context {number} {words} of {asked} in {files}", (rows, status), (run.stdout, run.returncode))
