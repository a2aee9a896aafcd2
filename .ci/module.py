"""Tries python/jpq.py in the folder that is named, with the program that is named, and with the library, where one is named: each
answer, each kind of exception, answers larger than any pipe, commands asked before the last answer was read, sequences, what can be
opened, and threads.
"""
import decimal
import functools
import gc
import io
import os
import shutil
import subprocess
import sys
import threading

program, room, *library = sys.argv[1:]
sys.dont_write_bytecode = True
sys.path.insert(0, os.path.join(os.path.dirname(os.path.abspath(__file__)), "..", "python"))
import jpq  # noqa: E402

os.chdir(room)
passed = failed = 0
way = ""  # the program or the library
opened = None  # opens a file in this way


def shows(name, wanted, found):
    global passed, failed
    if wanted == found:
        passed += 1
    else:
        failed += 1
        print(f"jpq.py, {way}, {name}: NOT AS STATED: {str(found)[:300]} for {str(wanted)[:300]}")


def raised(act):
    """What an act raises, as its class and what it tells."""
    try:
        act()
    except Exception as fault:
        return type(fault), getattr(fault, "fault", getattr(fault, "status", None))
    return None


def written(name, content):
    with open(name, "wb") as file:
        file.write(content)
    return name


LINES = written("lines", b'{"a":1.50,"b":[1,\t2]}\n\n\xff\n{"a":"\\u00e9"}\r\n'
                b'{"a":9007199254740993, "c":' + b"7" * 5000 + b"}")
SEQUENCE = written("sequence", b'\x1e{"a":[\n\n1,\n2\n]}\n\x1ex\x1e\x1e{"a": {\n"a":\nnull}}\n\x1e 12')


def answers():
    with opened(LINES) as log:
        rows = log.query("$.a")
        shows("query", [(1, "$['a']", b"1.50"), (4, "$['a']", b'"\\u00e9"'), (5, "$['a']", b"9007199254740993")], list(rows))
        shows("refused", ([(3, "utf8")], 3), (rows.refused, rows.count))
        shows("blanks", [(1, "$['b']", b"[1,\t2]")], list(log.query("$\n .b")))
        decoded = [row.value for row in log.query("$['a','b']")]
        shows("decode", [decimal.Decimal("1.50"), [1, 2], "\u00e9", 9007199254740993], decoded)
        shows("exact", "1.50", str(decoded[0]))
        shows("a long number", [decimal.Decimal("7" * 5000)], [row.value for row in log.query("$.c")])
        shows("check", (5, 1, 1, ((3, "utf8"),)), log.check())
        shows("index", (3, 1), (log.index("$.a"), log.index("$['b']")))
        shows("indexes", ("$['a']", "$['b']"), log.indexes())
        shows("explain", (("seek $['b']", "child 1"), 1, 3), log.explain("$.b.*"))
        shows("drop", (None, ("$['a']",)), (log.drop("$.b"), log.indexes()))
        shows("append", (6, 7), (log.append('{"a":"\u00e9"}'), log.append(b"\xff")))
        shows("replace", None, log.replace(1, "5\r"))
        shows("edited", [4, 5, 6], [row.line for row in log.query("$.a")])
        shows("edits, checked", (7, 2, 1), log.check()[:3])
        shows("nothing", ([], 0), (list(rows := log.query("$.absent")), rows.count))


def refusals():
    log = opened(LINES)
    shows("query syntax", (jpq.QueryRefusal, "query syntax"), raised(lambda: log.query("$[")))
    shows("query function", (jpq.QueryRefusal, "query function"), raised(lambda: log.explain("$[?a(@)]")))
    shows("index path", (jpq.IndexRefusal, "index path"), raised(lambda: log.index("$..a")))
    shows("index missing", (jpq.IndexRefusal, "index missing"), raised(lambda: log.drop("$.a")))
    shows("line", (jpq.LineRefusal, "line"), raised(lambda: log.replace(9, "1")))
    shows("command", (jpq.CommandRefusal, "command"), raised(lambda: log.replace(0, "1")))
    shows("a line feed", (ValueError, None), raised(lambda: log.append("1\n2")))
    shows("afterwards", 5, log.check().lines)
    log.close()
    log.close()
    shows("closed", (ValueError, None), raised(log.check))
    with opened(SEQUENCE, seq=True) as log:
        shows("separator", (jpq.SeparatorRefusal, "separator"), raised(lambda: log.append("\x1e1")))


VALUES = written("values", b"\n".join([
    b'{"a":1,"b":{"c":[1,2]},"s":"x"}', b'{"a":2,"b":{"c":[]},"s":"@"}', b"", b"5", b'"@.a"', b"[]", b"{ }", b"nul", b"null", b"[5, 6]",
    b'[{"a":1}]', b"5.0", b"-5", b'{"a":null}', b"true", b'""', b'"$"', b"[ \t]", b'{"a":[1],"s":"]) || $[?(@"}']))
CONDITIONS = """@.a
!@.a
@ == 5
$ == 5
@ > 1 || @.a > 1
@.a == 1 && @.b.c[?@ == 2]
@.b.c[?@ == $.a]
@[0] == 5
@[?@.a == $[0].a]
count(@[*]) == 0
count($.*) == 0
length(@) == 0
length(@) == length($)
@ == '@.a'
@ == "$" || @.s == ']) || $[?(@'
@.s == "@"
@
!$
$.b[?@[?@ == 1] && @[1] == $.b.c[1]]
match(@.s, '[^)(]') || (@ == null)
(@.a && !(@.b)) || @['a'] == 2
@\r.a\t==\t1""".split("\n")
MISTAKEN = ["@.a ==", "@.a, ?@.b", "@.a), ?(@.b", "@.a)] , [?(@.b", "@.a == 'x", "", "(@.a", "$[?@.a", "length(@)", "f(@)", "@[9007199254740992]",
            "@.a]", "@.a))", "@\\"]


def conditions():
    """The lines for which a condition holds are those that jpgrep selects by it."""
    has_jpgrep = shutil.which("jpgrep")
    with opened(VALUES) as log:
        shows("where", [(2, b"[]")], [row[::2] for row in log.query("$.b.c", where="@.a > 1")])
        shows("where nothing holds", ([], 0, 1), (list(rows := log.query("$..*", where="@.z")), rows.count, len(rows.refused)))
        shows("where, counted", (4, 4), (len(list(rows := log.query("$..*", where=b"@.a == 2"))), rows.count))
        shows("where, over bare values", [4, 12], [row.line for row in log.query("$", where="$ == 5")])
        for condition in CONDITIONS if has_jpgrep else []:
            said = subprocess.run(["jpgrep", "-s", "-n", "-w", condition, VALUES], stdout=subprocess.PIPE).stdout
            wanted = [int(row.split(b":")[0]) for row in said.splitlines()]
            shows(f"where {condition}", wanted, [row.line for row in log.query("$", where=condition)])
        for condition in filter(None, MISTAKEN):
            fault = raised(lambda: log.query("$", where=condition))
            shows(f"not a condition: {condition}", (jpq.QueryRefusal, "condition"), fault and (fault[0], fault[1].split()[0]))
        shows("no condition", 17, sum(1 for _ in log.query("$", where="")))
        shows("a line feed in a condition", [1], [row.line for row in log.query("$.a", where="@.a\n== 1")])
        log.replace(1, '{"a":7}')
        log.index("$.a")
        shows("where, by an index", [(1, "7")], [(row.line, row.bytes.decode()) for row in log.query("$.*", where="@.a == 7")])
    shows("where, closed", (ValueError, None), raised(lambda: log.query("$", where="@")))
    with opened(b'\x1e[\n\n]\x1e{"a":\n1}\x1e5\n', seq=True) as log:
        shows("where, of a sequence", [[1], [2], [3]],
              [[row.line for row in log.query("$", where=where)] for where in ("@ == $ && count(@.*) == 0 && !(@ == 5)", "@.a", "@ == 5")])


def statuses():
    shows("absent", (FileNotFoundError, None), raised(lambda: opened("absent")))
    shows("folder", (IsADirectoryError, None), raised(lambda: opened(".")))
    shows("a file that cannot be read", (OSError, None), raised(lambda: opened("/proc/self/mem")))
    if way == "program":
        shows("no program", (FileNotFoundError, None), raised(lambda: jpq.open(LINES, program="./absent")))
        try:
            opened(b"x", seq=True)
        except jpq.Ended as ended:
            shows("message", (13, True), (ended.status, ended.message.startswith("jpq: ")))
        log = opened(LINES)
        log._engine._process.kill()
        shows("killed", (jpq.Ended, -9), raised(log.check))
    else:
        shows("no library", (OSError, None), raised(lambda: jpq.open(LINES, library="./absent")))
    shows("no sequence", (jpq.Ended, 13), raised(lambda: opened(LINES, seq=True)))
    with opened(written("--seq", b"")) as log:
        shows("a name with a hyphen", 0, log.check().lines)


def places():
    """Where a query or a condition goes wrong, told by jpgrep; and, where that is not on the path, by the library."""
    path, has_jpgrep = os.environ["PATH"], shutil.which("jpgrep")
    with opened(LINES) as log:
        for word, act, column in (("query", lambda: log.query("$.items[?@.price = 90]"), 17),
                                  ("condition", lambda: log.query("$", where="@.items.price = 90"), 14)):
            for folders in [path] * bool(has_jpgrep) + [room]:
                try:
                    act()
                except jpq.QueryRefusal as refusal:
                    os.environ["PATH"] = folders
                    place = refusal.place
                    os.environ["PATH"] = path
                    if folders == path:
                        shows(f"where a {word} goes wrong", (True, [" " * (column + 2) + "^", "  help: equality is =="]),
                              (place.startswith(f"jpgrep: {word}: syntax: "), place.splitlines()[-2:]))
                    elif way == "program":
                        shows(f"where a {word} goes wrong is not known", None, place)
                    else:
                        shows(f"where a {word} goes wrong, of the library", (column, " " * (column + 2) + "^"),
                              (refusal.found.place, place.splitlines()[-1]))


def files():
    """What can be opened: names, bytes, and binary files from where they stand."""
    with open(LINES, "rb") as file:
        whole = file.read()
    with subprocess.Popen(["cat", LINES], stdout=subprocess.PIPE) as cat, opened(cat.stdout) as log:
        shows("a pipe", 5, log.check().lines)
    for kind, given in (("bytes", whole), ("a bytearray", bytearray(whole)), ("a view", memoryview(whole)), ("a buffer", io.BytesIO(whole))):
        with opened(given) as log:
            shows(kind, 5, log.check().lines)
    for kind, given in (("no bytes", b""), ("an empty bytearray", bytearray()), ("an empty buffer", io.BytesIO())):
        with opened(given) as log:
            shows(kind, 0, log.check().lines)
    for kind, given in (("a list", [whole[:7], whole[7:]]), ("lines in turn", iter(whole.splitlines(keepends=True)))):
        with opened(given) as log:
            shows(kind, (5, 3), (log.check().lines, len(list(log.query("$.a")))))
    os.mkfifo("named")
    with subprocess.Popen(["sh", "-c", f"cat {LINES} > named"]), opened("named") as log:
        shows("a named pipe", 5, log.check().lines)
    os.remove("named")
    with open(LINES, "rb") as file:
        file.readline()
        with opened(file) as log:
            shows("a file from where it stands", (4, 3), (log.check().lines, next(log.query("$.a")).line))


def threads():
    """Several threads over one log: each row of each answer comes to the thread that asked."""
    with opened(b"".join(b'{"n":%d}\n' % n for n in range(2000))) as log:
        found = {}

        def ask(name):
            found[name] = [sum(int(row.bytes) for row in log.query("$.n")) for _ in range(3)]

        several = [threading.Thread(target=ask, args=(name,)) for name in range(4)]
        for thread in several:
            thread.start()
        for thread in several:
            thread.join()
        shows("threads", {name: [sum(range(2000))] * 3 for name in range(4)}, found)


def sequences():
    with opened(SEQUENCE, seq=True) as log:
        values = [(1, b"[\n\n1,\n2\n]"), (3, b'{\n"a":\nnull}'), (3, b"null")]
        rows = log.query("$..a")
        shows("values with line feeds", values, [(row.line, row.bytes) for row in rows])
        shows("refused texts", ([(2, "grammar"), (4, "truncated")], 3), (rows.refused, rows.count))
        shows("check of texts", (4, 2, 0), log.check()[:3])
        outer = log.query("$..a")
        shows("a row, and the rest after a check", (values[0], 4, values[1:]),
              ((lambda row: (row.line, row.bytes))(next(outer)), log.check().lines, [(row.line, row.bytes) for row in outer]))


def pipes():
    """Answers and commands much larger than a pipe, in every order."""
    count = 40000
    with opened(written("many", b"".join(b'{"n":%d,"s":"%s"}\n' % (n, b"x" * 100) for n in range(count)))) as log:
        shows("a large answer", count, sum(1 for _ in log.query("$.s")))
        first = next(log.query("$.s"))
        gc.collect()
        shows("one that nobody holds", (1, count), (first.line, log.check().lines))
        outer, seen = log.query("$.n"), []
        for row in outer:
            inner = log.query("$.s")
            seen.append((row.line, next(inner).line))
            if row.line == 3:
                break
        shows("one within another", [(1, 1), (2, 1), (3, 1)], seen)
        shows("both to their ends", (count - 3, count - 1), (sum(1 for _ in outer), sum(1 for _ in inner)))
        kept = log.query("$.s")
        text = '"' + "y" * 3_000_000 + '"'
        shows("a large command after a large answer", count + 1, log.append(text))
        shows("the answer is that of before", (count, count), (sum(1 for _ in kept), kept.count))
        shows("a large value", len(text), [len(row.bytes) for row in log.query("$")][-1])
        log.query("$.s")
        left = log.query("$.s")
    shows("closed before its end", (ValueError, None), raised(lambda: list(left)))


SURVEYED = [(3, 3, "$", "object"), (2, 2, "$['a']", "number"), (1, 1, "$['a']", "array"), (1, 2, "$['a'][*]", "null"),
            (1, 1, "$['b\\\\\\t']", "object"), (1, 1, "$['b\\\\\\t']['c']", "boolean"), (1, 1, "$['b\\\\\\t']['d']", "string"),
            (1, 1, "$['b\\\\\\t']['e']", "string")]
FOLDED = SURVEYED[:-3] + [(None, 1, "$['b\\\\\\t'][**]", "boolean"), (None, 2, "$['b\\\\\\t'][**]", "string")]


def texts():
    """What is in a text, and the values of one: told by the library, or by jpgrep."""
    text = b'{"a":1}\n{"a":[null,null],"b\\\\\\t":{"c":true,"d":"","e":""}}\nx\n{"a":-1}'
    several = b'{\n  "a": [1,\r\n  2]}\n[{"b":1}, 5, "x"] [y]'
    log = opened(LINES)
    if way == "program" and not shutil.which("jpgrep"):
        acts = (lambda: log.survey(text), lambda: log.values(text), lambda: log.patterns("$"))
        shows("no jpgrep", [(jpq.Error, None)] * 3, [raised(act) for act in acts])
        log.close()
        return
    rows = log.query("$.a")
    shows("the first of an answer before", b"1.50", next(rows).bytes)
    shows("a survey", SURVEYED, log.survey(text))
    shows("folded", FOLDED, log.survey(bytearray(text), fold=2))
    shows("not folded", [SURVEYED] * 2, [log.survey(memoryview(text), fold=fold) for fold in (3, 1 << 70)])
    shows("where", [(2, 2, "$", "object"), (2, 2, "$['a']", "number")], log.survey(text, where="@.a\n> -2"))
    shows("nothing to survey", ([], []), (log.survey(b""), log.survey(text, where=b"@.z")))
    shows("survey, refused", [(jpq.QueryRefusal, "condition syntax"), (jpq.QueryRefusal, "condition function")],
          [raised(lambda where=where: log.survey(text, where=where)) for where in ("@.a =", "f(@)")])
    shows("values", (b'{  "a": [1,  2]}\n[{"b":1}, 5, "x"]\n', 1), log.values(several))
    shows("elements", (b'{  "a": [1,  2]}\n{"b":1}\n5\n"x"\n', 1), log.values(several, "elements"))
    shows("lines", (b'{"a":1}\n{"a":-1}\n', 1), log.values(bytearray(b'{"a":1}\nx\n\n{"a":-1}'), units="lines"))
    shows("no values", (b"", 0), log.values(b" \n"))
    with opened(log.values(several, "elements").lines) as inner:
        shows("values, opened", [1, 2], [row.value for row in inner.query("$.a[*]")])
    shows("no such units", (ValueError, None), raised(lambda: log.values(text, "documents")))
    shows("a text of another format", [(jpq.Error, None)] * 2, [raised(lambda act=act: act(b"\x1f\x8b")) for act in (log.survey, log.values)])
    shows("patterns", (["x(", "\u00e9{2,1}"], []), (log.patterns("$[?match(@.a, 'x(') || search(@.b,\n'\u00e9{2,1}')]"), log.patterns(b"$.a")))
    shows("patterns of a condition", (["["], []), (log.patterns("search(@, '[') && match(@, 'x')", condition=True),
                                                  log.patterns("@.a == 'x('", condition=True)))
    shows("patterns, refused", [(jpq.QueryRefusal, "query syntax"), (jpq.QueryRefusal, "condition types")],
          [raised(lambda: log.patterns("$[")), raised(lambda: log.patterns("match(@.a)", condition=True))])
    shows("the rest of the answer before", [4, 5], [row.line for row in rows])
    log.close()
    acts = (lambda: log.survey(text), lambda: log.values(text), lambda: log.patterns("$"))
    shows("texts, closed", [(ValueError, None)] * 3, [raised(act) for act in acts])


def singles():
    """The calls that the library answers alone."""
    log = opened(LINES)
    if way == "program":
        for name, act in ("line", lambda: log.line(1)), ("fault", lambda: log.fault("$")), ("filter", lambda: log.filter(b"")):
            shows(f"no {name}", (jpq.Error, None), raised(act))
        log.close()
        return
    rows = log.query("$.a")
    shows("the first of an answer", b"1.50", next(rows).bytes)
    shows("lines", (b'{"a":1.50,"b":[1,\t2]}', b"", b"\xff"), (log.line(1), log.line(2), log.line(3)))
    shows("the rest of the answer before", [4, 5], [row.line for row in rows])
    shows("marks", [(5, 9, "$['a']"), (14, 20, "$['b']")], log.marks(1, "$['a',\n'b']"))
    shows("no marks", ([], []), (log.marks(2, "$"), log.marks(3, b"$")))
    shows("no line", [(jpq.LineRefusal, "line")] * 4, [raised(lambda n=n: log.line(n)) for n in (0, 6, -1, 1 << 70)])
    shows("marks of no line", (jpq.LineRefusal, "line"), raised(lambda: log.marks(6, "$")))
    shows("marks, refused", (jpq.QueryRefusal, "query types"), raised(lambda: log.marks(1, "$[?length(@)]")))
    text = b'{"n":1,"s":"a,b"}\n{"n":2}\nx\n{"n":3,"s":"\\u00e9"}'
    shows("filter", b"1\n3\n", log.filter(text, "$.n", where="@.s"))
    shows("lines of it", b'2:{"n":2}\n', log.filter(memoryview(text), where=b"@.n == 2", show="lines", numbered=True))
    shows("a table", b'1,"a,b"\n2,\n3,\xc3\xa9\n', log.filter(bytearray(text), "$.n", "$.s", show="csv"))
    shows("paths", b"$['s']\t\"a,b\"\n$['s']\t\"\\u00e9\"\n", log.filter(text, "$.s", show="paths"))
    shows("strings as text", b"a,b\n\xc3\xa9\n", log.filter(text, "$.s", show="text"))
    shows("canonical values", b'"a,b"\n"\xc3\xa9"\n', log.filter(text, "$.s", show="canonical values"))
    shows("nothing", (b"", b""), (log.filter(text, show="nothing"), log.filter(b"")))
    shows("filter, refused", [(jpq.QueryRefusal, "condition syntax"), (jpq.QueryRefusal, "query function"), (jpq.QueryRefusal, "query column")],
          [raised(act) for act in (lambda: log.filter(text, where="@.n ="), lambda: log.filter(text, "$", "$[?f(@)]"),
                                   lambda: log.filter(text, "$..n", show="tsv"))])
    shows("another format", (jpq.Error, None), raised(lambda: log.filter(b"\x1f\x8b")))
    shows("no such show", (ValueError, None), raised(lambda: log.filter(text, show="all")))
    shows("faults", [None, ("syntax", 2, "a selector"), ("integer", 2, ""), ("types", 3, "")],
          [log.fault(query) for query in ("$.a", "$[", "$[9007199254740992]", "$[?length(@)]")])
    shows("fault of a condition", (None, ("syntax", 0, "'$'")), (log.fault("@.a", condition=True), log.fault("@.a")))
    shows("as before", (5, 1, 1, ((3, "utf8"),)), log.check())
    log.close()
    shows("closed", [(ValueError, None)] * 2, [raised(lambda: log.line(1)), raised(lambda: log.fault("$"))])


ways = [("program", {"program": program})] + [("library", {"library": name}) for name in library]
for way, named in ways:
    opened = functools.partial(jpq.open, **named)
    for try_it in (answers, conditions, refusals, statuses, places, files, sequences, pipes, texts, singles, threads):
        try_it()
os.environ["JPQ"] = program
way = "either"
os.makedirs("made/lib")
if library:
    os.symlink(os.path.abspath(library[0]), "made/lib/libjpq.so.0")
for name in library[0] if library else "./absent", "made":
    os.environ["JPQ_LIBRARY"] = name
    with jpq.open(LINES) as log:
        shows(f"what is found by {name}", "_Library" if library else "_Program", type(log._engine).__name__)
print(f"jpq.py: {passed} passed, {failed} failed, 0 skipped")
sys.exit(failed > 0)
