"""Runs jpgrep with each growth refused in turn, and says whether every run ended as stated.

    jpgrep_growths.py PROGRAM FOLDER LIBRARY

FOLDER is for files. LIBRARY is `refuse.c` as it was built; if it is empty, no growth can be refused, and nothing is tried.

A run in which a growth was refused ends in one of three ways. It has no need of the growth, and is as without the refusal. Or it
begins no search: then it ends with status 2, says `jpgrep: out of memory` last, and writes and says a beginning of what it writes and
says without the refusal, but for which line of a list was given up. Or it gives up a line, or passes over the rest of a stream: then
it says which line of which stream, ends with status 2, and what it writes, and says beside that, is what it writes and says without
the refusal, less one piece of it, and with other counts. Lines around those that are selected may be others then, none of another
stream or from beyond the line that was given up. A growth that the library asks for again at once, since it may have been asked for
with too high a hint, is then refused both times.
"""
import os
import re
import subprocess
import sys
import time

PROGRAM, FOLDER, LIBRARY = sys.argv[1:]
NO_MEMORY = b"jpgrep: out of memory\n"
LINE_LOST = re.compile(rb"^jpgrep: [^\n]*:\d+: out of memory(, from line \d+|; the rest is not searched)?\n", re.MULTILINE)
# A row of a selected line, with its number.
SELECTED = re.compile(rb"^(?:[^\n:{-]*:)?\d+:[^\n]*\n", re.MULTILINE)
# What stands in front of each row of lines around selected ones: the name of its stream where it is told, its number, and the sign.
FRONT = re.compile(rb"(?:([^\n:{-]*)[:-])?(\d+)([:-])")
# What begins or ends a colour.
COLOUR = re.compile(rb"\x1b\[[0-9;]*[mK]")
COUNT = re.compile(rb"\b\d+$|\d+ more lines? (is|are) refused; --refused lists them$", re.MULTILINE)
ASKED_AGAIN = "refused\nasked again\n"
END = time.monotonic() + 240
MOST_TOLD = 20

LINES = b"""{"level":"error","ms":340,"tags":["a","b"]}
{"level":"info","ms":12}

{"level":"error" "ms":1}
{"a":1,"b":2,"c":3,"d":4,"e":5,"f":6,"g":7,"h":8,"i":9,"deep":[[[[[[[[[[0]]]]]]]]]]}
{"level":"\\u0065rror","ms":1.50e2}
""" + b'{"level":"error","long":"' + b"x" * 70_000 + b'"}\n' + b'{"a":"\xff"}\n{"level":"error"}'
SEQUENCE = b'\x1e{"level":"error"}\n\x1e[1,\n\x1e{"level":\n"info"}\n'

IDS = b"".join(b'"id%d"\n' % number for number in range(40)) + b'"err\\u006fr"\n{"b":[1,{}],"a":1e9}\n'

DOCUMENTS = b'{"level":\n"error"}[1,\n2]"x" tru {"a" 1}' + b"[" + LINES.replace(b"\n", b",\n")

# A stream that ends with a selected line, and one whose lines of 200,000 bytes may be given up.
HIT = b'{"a":1}\n{"b":1}\n{"hit":1}\n'
LONG = b'["' + b"x" * 200_000 + b'"]\n{"c":0}\n{"hit":2}\n["' + b"y" * 200_000 + b'"]\n{"hit":3}\n{"c":1}\n'

# The words of each run, and the text of its standard input.
RUNS = [
    (["$"], LINES),
    (["-c", "$"], b"{\n" * 12 + LINES),
    (["-n", "-H", '$[?@=="error"]', "lines", "-", "absent", "lines"], LINES),
    (["-o", "-p", "-e", "$..*", "-e", "$.tags[::-1]", "-w", "@.ms > 100 || match(@.level, 'e(r|x)+o.')", "lines"], b""),
    (["-v", "-c", "-w", "length(@.level) == 5", "lines", "sequence"], b""),
    (["--seq", "-n", "$.level", "-", "sequence"], SEQUENCE),
    (["--json", "-n", "$.level", "-", "lines"], DOCUMENTS),
    (["--elements", "-n", "$.level", "lines", "-"], DOCUMENTS),
    (["-r", "$.level", "lines"], b""),
    (["-j", "-o", "$", "lines"], b""),
    (["-o", "-p", "-e", "$.deep..*..*[?@..*..*]..*", "-e", "$..[?count(@..*..*)>2]..*..[?value(@..*..*)==0]", "lines"], b""),
    (["--csv", "--header", "-n", "-H", "-e", "$.level", "-e", "$.ms", "-e", "$.tags", "-e", "$.deep", "-e", "$.long", "lines"], b""),
    (["--tally", "$..*", "lines"], b""),
    (["--tally", "-r", "$.level"], LINES * 2),
    (["--tally", "--csv", "--names", "level,ms,tags", "-e", "$.level", "-e", "$.ms", "-e", "$.tags", "lines", "lines"], b""),
    (["--paths", "lines"], b""),
    (["--paths", "--fold", "2", "--tsv", "--header", "lines", "-"], LINES),
    (["--paths", "-w", "@.level", "--in", "@.level", "ids", "--json", "-"], DOCUMENTS),
    (["--paths", "--each", "$..*", "lines", "-"], LINES),
    (["--tsv", "--names", "value", "-e", "$", "lines"], b""),
    (["-n", "-p", "-m", "40", "--each", "$..*", "-w", "@ != $.level || @.*", "-e", "@", "-e", "$.ms", "lines", "lines"], b""),
    (["-c", "-v", "--each", "$.tags[*]", "--in", "@", "ids", "lines"], b""),
    (["--refused", "-n", "-p", "lines", "-"], b"{\n" * 3 + LINES),
    (["-n", "-H", "-C", "1", "-w", "@.level == 'error'", "lines", "-"], LINES),
    (["-n", "-v", "-s", "-B", "2", "-A", "1", "$.level", "lines"], b""),
    (["-n", "-r", "--refused", "-B", "1", "lines"], b""),
    (["-n", "-s", "-m", "1", "-A", "9", "-w", "@.ms == 340", "lines"], b""),
    (["-n", "-j", "--json", "-C", "1", "$.level"], DOCUMENTS),
    (["--color=always", "-n", "-H", "-e", "$..*", "-e", "$", "lines", "-"], LINES),
    (["--color=always", "-n", "-o", "-p", "-e", "$..*", "-w", "@.ms", "lines"], b""),
    (["--color=always", "-n", "-C", "1", "$.ms", "lines"], b""),
    (["-n", "-H", "-A", "2", "$.hit", "hit", "long", "hit"], b""),
    (["-n", "-H", "-B", "2", "-w", "@.hit == 2", "hit", "long"], b""),
    (["-n", "-C", "0", "$.hit", "long"], b""),
    (["--color=always", "-c", "--json", "$..*"], DOCUMENTS),
    (["-q", "$.absent", "lines"], b""),
    (["-c", "--in", "@.level", "ids", "--not-in", "$.ms", "-", "lines"], b"1.5e2\n{\n"),
    (["--in", "@", "gone", "lines"], b""),
    (["--in", "@[*]", "ids", "lines"], b""),
    (["-l", "-m", "1", "-s", "$", "lines", "sequence"], b""),
    (["--help"], b""),
    (["-l", "-L", "$"], b""),
    (["$[?unknown(@)]"], b""),
]


class Run:
    """How one run ended: status, standard output and error, and what the library told."""

    def __init__(self, words, text, refused, next_too=False):
        told, to = os.pipe()
        loaded = {"LD_PRELOAD": LIBRARY, "REFUSE": str(refused), "TOLD": str(to)}
        if next_too:
            loaded["NEXT"] = "1"
        # A file, since a pipe gives pieces of other lengths each time.
        given = os.path.join(FOLDER, "given")
        with open(given, "wb") as file:
            file.write(text)
        with open(given, "rb") as stdin:
            try:
                ended = subprocess.run([PROGRAM, *words], cwd=FOLDER, stdin=stdin, capture_output=True,
                                       env={**os.environ, **loaded}, pass_fds=[to], timeout=5)
                self.result = ended.returncode, ended.stdout, ended.stderr
            except subprocess.TimeoutExpired:
                self.result = "none: it did not end", b"", b""
        os.close(to)
        with open(told) as line:
            self.told = line.read()

    def growths(self):
        """How many growths a run had in which none was refused; -1 where the library did not tell."""
        return int(self.told) if self.told.strip().isdigit() else -1


def lacks_a_piece(part, whole):
    """Whether a text is another one less one piece of it, whatever the counts in it."""
    part, whole = COUNT.sub(b"", part), COUNT.sub(b"", whole)
    before = len(os.path.commonprefix([part, whole]))
    behind = len(os.path.commonprefix([part[:before - 1:-1] if before else part[::-1], whole[::-1]]))
    return before + behind >= len(part)


def counts_less(part, whole):
    """Whether each row of a tally is one of another, which came no less often."""
    rows = [dict(row.split(b"\t" if b"\t" in row else b",", 1)[::-1] for row in text.splitlines()) for text in (part, whole)]
    return all(row in rows[1] and (count == rows[1][row] or int(count) <= int(rows[1][row])) for row, count in rows[0].items())


def survey_less(part, whole):
    """Whether each row of a survey is one of another, which tells of no fewer lines and nodes."""
    rows = [{tuple(row[2:]): row[:2] for row in (line.split(b"\t") for line in text.splitlines())} for text in (part, whole)]
    return all(row in rows[1] and all(told == most or int(told) <= int(most) for told, most in zip(counts, rows[1][row]))
               for row, counts in rows[0].items())


def shows_context(words):
    """Whether a run shows lines around selected lines."""
    return any(word in ("-A", "-B", "-C") for word in words)


def is_group(rows):
    """Whether rows are those of lines of one stream that follow one another, with one that is selected."""
    fronts = [FRONT.match(row).groups() for row in rows.splitlines()]
    name, first, _ = fronts[0]
    numbers = [int(number) for _, number, _ in fronts]
    return numbers == [*range(int(first), int(first) + len(fronts))] and {front[0] for front in fronts} == {name} and b":" in (front[2] for front in fronts)


def around_less(part, whole, lines, are_lines):
    """Whether the selected rows of a text are those of another, less one piece, and its rows are some of the rows of all lines, in order.
    Where each is one line, two hyphens stand wherever its lines do not follow one another, and each group has a selected one."""
    following = iter(lines.split(b"\n"))
    rows = (row for row in part.split(b"\n") if row != b"--")
    if are_lines and part and not all(is_group(group) for group in re.split(rb"^--\n", part, flags=re.MULTILINE)):
        return False
    return all(row in following for row in rows) and lacks_a_piece(*(b"".join(SELECTED.findall(text)) for text in (part, whole)))


def refused_fault(words, got, whole, lines):
    """What is wrong with a run in which a growth was refused, or None. Where it shows lines around selected ones, `lines` shows all."""
    (status, out, said), (_, whole_out, whole_said) = got, whole
    if got == whole:
        return None
    if status != 2:
        return f"status {status} for 2, said {said[-200:]!r}"
    if said.endswith(NO_MEMORY):
        is_stated = whole_out.startswith(out) and whole_said.startswith(LINE_LOST.sub(b"", said.removesuffix(NO_MEMORY)))
        return None if is_stated else f"wrote {out[-200:]!r} and said {said[-200:]!r}, which are no beginnings"
    lost = LINE_LOST.findall(said)
    if len(lost) != 1:
        return f"said {said[-200:]!r}"
    if not lacks_a_piece(LINE_LOST.sub(b"", said), whole_said):
        return f"said {said[-200:]!r} for {whole_said[-200:]!r}"
    is_less = counts_less if "--tally" in words else survey_less if "--paths" in words else lacks_a_piece
    around = (COLOUR.sub(b"", text) for text in (out, whole_out, lines))
    if not (around_less(*around, "--json" not in words) if shows_context(words) else is_less(out, whole_out)):
        return f"wrote {out[-200:]!r}, which is not what it writes without that, less one piece"
    return None


def each_refused(words, text, counts):
    """Refuses each growth of a run in turn, until one meets no refusal."""
    whole = Run(words, text, 0)
    lines = Run([*words, "-A", "99", "-B", "99"], text, 0).result[1] if shows_context(words) else b""
    number = again = 0
    while time.monotonic() < END:
        run = Run(words, text, number + 1)
        if not run.told.startswith("refused\n"):
            break
        number += 1
        if run.told == ASKED_AGAIN and run.result == whole.result:
            again += 1
            run = Run(words, text, number, next_too=True)
        fault = refused_fault(words, run.result, whole.result, lines)
        counts[fault is None] += 1
        if fault and counts[False] <= MOST_TOLD:
            print(f"jpgrep {words}, growth {number} refused: NOT AS STATED: {fault}")
    complete = 0 < number == whole.growths() and run.result == whole.result
    counts[complete] += 1
    if not complete:
        print(f"jpgrep {words}: {number} growths were refused in time, and {whole.growths()} counted")
    return number, again


def main():
    if not LIBRARY:
        print("skipped: every refusal, as there is no `cc` with its headers to build what refuses")
        print(f"jpgrep: 0 passed, 0 failed, {len(RUNS)} skipped")
        return 0
    for name, text in (("lines", LINES), ("sequence", SEQUENCE), ("ids", IDS), ("hit", HIT), ("long", LONG)):
        with open(os.path.join(FOLDER, name), "wb") as file:
            file.write(text)
    counts = {False: 0, True: 0}
    refused = [each_refused(words, text, counts) for words, text in RUNS]
    print(f"jpgrep: {sum(number for number, _ in refused)} growths refused in {len(RUNS)} runs; "
          f"{sum(again for _, again in refused)} asked for again at once, and refused again")
    print(f"jpgrep: {counts[True]} passed, {counts[False]} failed, 0 skipped")
    return 1 if counts[False] else 0


sys.exit(main())
