"""Asks the calls of the C library that answer single questions, and compares what they leave with what the programs write: the rows of
jpq_filter, jpq_survey and jpq_values with those of jpgrep, a line with the file's, the marks of a query with the rows of jpq, and faults
with the kept ones of broken queries, and patterns that are not valid with the warnings of jpgrep. Then each growth is refused in turn: every question is answered as before, or has status 16 and leaves nothing.

    calls.py CALLS REFUSER JPQ JPGREP KEPT FOLDER
"""
import itertools
import os
import subprocess
import sys

CALLS, REFUSER, JPQ, JPGREP, KEPT, FOLDER = (os.path.abspath(word) for word in sys.argv[1:])
QUESTION, LINE, FORMAT, NONE, MEMORY, NUMBER = 3, 4, 5, 6, 16, 2
LINES = [b'{"a":[1.50,\t2],"b":"x\\ty"}', b"", b" \t", b"\xff", b'{"a": {"b" : "\\u00e9,\\"q\\""}}\r', b"[[1],[2,{}]]", b'{"a":1,"a":2}',
         b'{"n":12,"b":"caf\xc3\xa9, or \\"tea\\"","a":[ {"b":null} , true ]}', b'"a"', b'{"n":-0.0,"b":1e3}',
         b'{"q\\t\\\\\'":{"u\\u0001":[[]],"\\u00e9":null}}']
QUERIES = ["$", "$..*", "$.a", "$.a[0]", "$..b", "$['a','b']", "$.a[::-1]", "$[?@.b]", "$.absent"]
REFUSED = ["$[", ".a", "$.a ", "$[?f(@)]", "$[?length(@)]", "$[9007199254740992]", "$" + "[0]" * 513, "$[?@==1e1111111111111111]"]
CONDITIONS = ["", "@.b", "@.n > 0", "count(@.*) > 1 && !@.n"]
# What jpgrep takes for what jpq_filter is to show.
SHOWN = [["-q"], [], ["-p"], ["--csv"], ["--tsv"], ["-j"], ["-j", "-p"], ["-j", "-o"], ["-o"], ["-r", "-o"]]
TABLES = 3, 4
FOLDS = 1, 2, 3, 1000, 2 ** 64 - 1
# What jpgrep takes for the units of jpq_values, and texts in which they are found: the bytes, and how many lines, texts and elements are
# refused in them.
UNITS = [[], ["--json"], ["--elements"]]
TEXTS = [
    (b"", (0, 0, 0)),
    (b" \n\t\r\n", (0, 0, 0)),
    (b'{\n  "a": 1,\r\n  "b": [\n    2\n  ]\n}\n', (5, 0, 0)),
    (b'[\n  {"a": 1},\n  [2, 3],\n  "x\\ny"\n]', (4, 0, 0)),
    (b'[1,2] [3]{"a":[4]} 5', (1, 0, 0)),
    (b'[1,x,2]\n{"a":1}', (1, 1, 1)),
    (b'{"a":[1,\n2', (1, 1, 1)),
    (b"[1]\n\xff\n[2]", (1, 1, 1)),
]
# Queries and conditions, and their patterns that are not valid: written in the query, as the second argument of match or search.
PATTERNS = [
    (0, "$", []),
    (0, "$[?match(@.a, 'x(')]", ["x("]),
    (0, "$[?search(@.b, '[a-')]..[?match(@.c, 'a.b')]", ["[a-"]),
    (0, "$.a[?@.b[?match(@.c, '*')] && (search(@, ')') || !match(@, '+'))]['x', ?search(@, \"\\u00e9{2,1}\")]", ["*", ")", "+", "\u00e9{2,1}"]),
    (0, "$[?match('x(', @.a)]", []),
    (0, "$[?match('a(', 'b(') || search(@.a, $.b) || match(@.a, 'c')]", ["b("]),
    (0, "$[?count(@[?match(@, 'd(')]) > length(value($..[?search(@, 'e(')]))]", ["d(", "e("]),
    (0, "$[?@.a == 'x(' && length('x(') == 1]", []),
    (0, "$[?match(value(@[?search(@, '1(')]), '2(')]", ["1(", "2("]),
    (1, "match(@.a, 'x(') || !search($.b, '\\\\p{Zzz}')", ["x(", "\\p{Zzz}"]),
    (1, "@.a[?search(@, '(?i)x')]", ["(?i)x"]),
    (1, "@.a == 1", []),
]
COLUMNS = [["$.a"], ["$.b", "$.n"], []]

passed = failed = 0


def shows(name, wanted, found):
    global passed, failed
    if wanted == found:
        passed += 1
    else:
        failed += 1
        print(f"calls: {name}: NOT AS STATED: {str(found)[:300]} for {str(wanted)[:300]}")


def run(*words, environment=None, told=()):
    return subprocess.run(words, capture_output=True, env={**os.environ, **(environment or {})}, pass_fds=told)


def ask(questions, refused=None, told=()):
    """What is answered to each question: the status, where a fault is, and what is left."""
    with open("questions", "wb") as file:
        file.write(b"\n".join("\t".join(map(str, question)).encode() for question in questions))
    environment = None if refused is None else {"LD_PRELOAD": REFUSER, "REFUSE": str(refused), "TOLD": str(told[0])}
    done = run(CALLS, "collection", "questions", environment=environment, told=told)
    answers, rest = [], done.stdout
    while rest:
        head, _, rest = rest.partition(b"\n")
        status, length, *place = map(int, head.split())
        answers.append((status, *place, rest[:length]))
        rest = rest[length:]
    return done.returncode, answers


def lines():
    numbers = [0, *range(1, len(LINES) + 1), len(LINES) + 1, 2 ** 32 + 1, 2 ** 64 - 1]
    status, answers = ask(("line", number) for number in numbers)
    wanted = [(0, LINES[number - 1]) if 0 < number <= len(LINES) else (LINE, b"") for number in numbers]
    shows("lines", (0, wanted), (status, answers))


def marks():
    """A row of jpq has the number of the line, the path and the bytes; a refused line has one without a path."""
    for query in QUERIES:
        rows = run(JPQ, "collection", "-c", "query " + query).stdout.split(b"\n")[:-2]
        wanted = [row.split(b"\t") if row.count(b"\t") == 2 else row.split(b"\t", 2) for row in rows if row.split(b"\t", 1)[1][:1] == b"$"]
        wanted = [(int(number), path, text) for number, path, text in wanted]
        status, answers = ask(("marks", number, query) for number in range(1, len(LINES) + 1))
        found = []
        for number, (answered, text) in enumerate(answers, 1):
            shows(f"marks of {query} in line {number}", 0, answered)
            for start, end, path in (row.split(b"\t") for row in text.splitlines()):
                found.append((number, path, LINES[number - 1][int(start):int(end)]))
        shows(f"marks of {query}", (0, wanted), (status, found))
    refused = ask([("marks", 1, query) for query in REFUSED] + [("marks", 99, "$"), ("marks", 0, "$"), ("marks", 2 ** 40, "$[")])
    shows("marks, refused", (0, [(QUESTION, b"")] * len(REFUSED) + [(LINE, b"")] * 2 + [(QUESTION, b"")]), refused)


def filters():
    questions, wanted = [], []
    for shown, numbered, condition in itertools.product(range(len(SHOWN)), (0, 1), CONDITIONS):
        for queries in COLUMNS if shown in TABLES else [[query] for query in QUERIES] + [["$.a", "$.b"], []]:
            words = [word for query in queries or ["$"] for word in ("-e", query)] + (["-w", condition] if condition else [])
            wanted.append((0, run(JPGREP, "-h", "-s", *SHOWN[shown], *["-n"] * numbered, *words, "collection").stdout))
            questions.append(("filter", shown, numbered, condition, *queries))
    status, answers = ask(questions)
    for question, row, answer in zip(questions, wanted, answers):
        shows(str(question), row, answer)
    shows("filters", (0, len(questions)), (status, len(answers)))
    refused = [("filter", 1, 0, "", "$", query) for query in REFUSED] + [("filter", 1, 0, "@.a =", "$"), ("filter", 3, 0, "", "$.a", "$..a")]
    shows("filters, refused", (0, [(QUESTION, b"")] * len(refused)), ask(refused))
    shows("nothing to show", (0, [(NUMBER, b"")] * 2), ask([("filter", len(SHOWN), 0, "", "$"), ("filter", 4294967295, 0, "", "$[")]))


def surveys():
    questions, wanted = [], []
    for fold, condition in itertools.product(FOLDS, CONDITIONS):
        words = ["-w", condition] if condition else []
        wanted.append((0, run(JPGREP, "-s", "--paths", "--fold", str(fold), *words, "collection").stdout))
        questions.append(("survey", fold, condition))
    status, answers = ask(questions)
    for question, row, answer in zip(questions, wanted, answers):
        shows(str(question), row, answer)
    shows("surveys", (0, len(questions)), (status, len(answers)))
    shows("no fold told", wanted[FOLDS.index(1000) * len(CONDITIONS)], (0, run(JPGREP, "-s", "--paths", "collection").stdout))
    shows("surveys, refused", (0, [(QUESTION, b"")] * 2), ask([("survey", 1, "@.a ="), ("survey", 1, "$[")]))


def values():
    """The rows of jpq_values are those of jpgrep, and each can be read as a line."""
    for text, refused in TEXTS:
        with open("collection", "wb") as file:
            file.write(text)
        for units, words in enumerate(UNITS):
            rows = run(JPGREP, "-h", "-s", *words, "$", "collection").stdout
            shows(f"the values of {text} by {words}", (0, [(0, refused[units], rows)]), ask([("values", units)]))
            shows(f"refused in {text} by {words}", refused[units], int(run(JPGREP, "-s", "-c", "--refused", *words, "collection").stdout))
    shows("no units", (0, [(NUMBER, 77, b"")] * 2), ask([("values", len(UNITS)), ("values", 4294967295)]))


def formats():
    for mark in b"\x1f\x8b", b"(\xb5/\xfd", b"\xfd7zXZ\0", b"PK\x03\x04", b"\xff\xfe", b"BZh91AY&SY":
        with open("collection", "wb") as file:
            file.write(mark + b"\n{}\n")
        foreign = [(FORMAT, b""), (FORMAT, b""), (FORMAT, 77, b"")]
        shows(f"the mark {mark}", (0, foreign), ask([("filter", 1, 0, "", "$"), ("survey", 1, ""), ("values", 1)]))
    with open("collection", "wb") as file:
        file.write(b"\xef\xbb\xbf{}\n")
    shows("a byte order mark", (0, [(0, b"1:{}\n"), (0, 0, b"{}\n")]), ask([("filter", 1, 1, "", "$"), ("values", 1)]))


def faults():
    for file, is_condition in ("places.examples", 0), ("conditions.examples", 1):
        kept = [line.split("\t", 2) for line in open(os.path.join(KEPT, file), encoding="utf-8").read().split("\n")[:-1]]
        kept = [(place, said, text) for place, said, text in kept if "\t" not in text]
        status, answers = ask(("fault", is_condition, text) for _, _, text in kept)
        for (place, said, text), (number, at, words) in zip(kept, answers):
            expected = said[len("syntax: expected "):] if said.startswith("syntax: expected ") else ""
            where = len(text.encode()[:at].decode())
            shows(f"the fault of {text}", (int(place), expected), (where, words.decode()))
            shows(f"the number of the fault of {text}", said.startswith("syntax"), number == 2)
        shows(file, (0, len(kept)), (status, len(answers)))
    good = [("fault", 0, query) for query in QUERIES] + [("fault", 1, condition) for condition in CONDITIONS[1:]]
    shows("no fault", (0, [(0, 77, b"")] * len(good)), ask(good))
    shows("faults", [2, 2, 2, 5, 6, 3, 1, 4], [number for number, _, _ in ask([("fault", 0, query) for query in REFUSED])[1]])
    shows("a condition is no query", ([(2, 0, b"'$'")], [(0, 77, b"")]), (ask([("fault", 0, "@.a == 1")])[1], ask([("fault", 1, "@.a == 1")])[1]))


def patterns():
    for is_condition, text, invalid in PATTERNS:
        wanted = [(0, len(pattern.encode()), pattern.encode()) for pattern in invalid] + [(NONE, 77, b"")] * 2
        shows(f"the patterns of {text}", (0, wanted), ask([("pattern", is_condition, text, number, 80) for number in range(len(invalid) + 2)]))
        said = run(JPGREP, "--check", f"--{'where' if is_condition else 'query'}={text}").stderr.decode()
        said = [line.split("'", 1)[1].rsplit("' is not", 1)[0] for line in said.splitlines() if " is not a valid I-Regexp" in line]
        shows(f"the warnings of {text}", invalid, said)
    text = "$[?match(@.a, '\u00e9\u00e9(')]"
    pattern = "\u00e9\u00e9(".encode()
    wanted = [(0, 5, pattern[:room]) for room in (0, 1, 4, 5, 6)]
    shows("a room for less", (0, wanted), ask([("pattern", 0, text, 0, room) for room in (0, 1, 4, 5, 6)]))
    shows("no pattern of that number", (0, [(NONE, 77, b"")] * 2), ask([("pattern", 0, text, number, 80) for number in (1, 2 ** 64 - 1)]))
    refused = [*REFUSED, "$[?match(@[?search(@, '1(')].a, '2(')]"]
    shows("patterns, refused", (0, [(QUESTION, 77, b"")] * len(refused)), ask([("pattern", 0, query, 0, 80) for query in refused]))


def growths():
    questions = [("line", 1), ("marks", 1, "$..*"), ("marks", 8, "$[?search($.b,'caf')]"), ("fault", 0, "$.a[?@.b == 'x' && count(@.*)>1]"),
                 ("fault", 1, "@.a =="), ("filter", 2, 1, "@.b", "$..*", "$.a"), ("filter", 3, 0, "", "$.a", "$.b"), ("filter", 5, 0, "", "$"), ("survey", 1, "@.b"),
                 ("survey", 1000, ""), ("values", 0), ("values", 1), ("values", 2), ("pattern", 0, "$[?match(@.a, '(') || search(@.b, 'x')]", 0, 80),
                 ("pattern", 1, "match(@.a, '[') && search(@.b, 'x{')", 1, 80)]
    reading, writing = os.pipe()
    status, whole = ask(questions, 0, (writing,))
    os.close(writing)
    with os.fdopen(reading) as told:
        count = int(told.read())
    shows("growths", (0, True), (status, count > 50))
    for refused in range(1, count + 1):
        with open(os.devnull, "w") as nothing:
            status, answers = ask(questions, refused, (nothing.fileno(),))
        if status == MEMORY and not answers:
            continue  # the collection was not loaded
        short = [answer for answer, wanted in zip(answers, whole) if answer != wanted]
        is_fine = status == 0 and len(answers) == len(whole) and len(short) <= 1 and all(answer[0] == MEMORY and not answer[-1] for answer in short)
        shows(f"growth {refused} refused", True, is_fine)


os.chdir(FOLDER)
with open("collection", "wb") as collection:
    collection.write(b"\n".join(LINES))
lines()
marks()
filters()
surveys()
faults()
patterns()
growths()
values()
formats()
print(f"library, calls: {passed} passed, {failed} failed, 0 skipped")
sys.exit(failed > 0 or passed < 500)
