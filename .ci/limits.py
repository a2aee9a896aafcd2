"""Runs the programs on hostile texts and at their limits, and says whether each run ended as stated.

    limits.py JPQ JPGREP FOLDER

FOLDER is for files. Every run has the usual stack of 8 MB, and a time within which it has to end: what costs the square of its
input does not. What needs more memory than the machine has free is skipped, with a message.
"""
import os
import random
import resource
import subprocess
import sys
import time

PROGRAM, FILTER, FOLDER = sys.argv[1:]
MILLION = 1_000_000
MOST_BYTES = 2**32 - 1
SECONDS = 60
CHECKED = "= {} lines, {} refused, 0 blank\n"


class Checks:
    """How many checks passed, failed and were skipped."""

    passed = 0
    failed = 0
    skipped = 0

    def check(self, name, got, stated):
        """Compares what a run gave with what is stated of it."""
        if got == stated:
            self.passed += 1
            return
        self.failed += 1
        print(f"{name}: NOT AS STATED: {shortened(got)} for {shortened(stated)}")


def shortened(value):
    text = repr(value)
    return text if len(text) < 300 else f"{text[:140]} .. {text[-140:]}"


def file_of(name, text):
    path = os.path.join(FOLDER, name)
    with open(path, "wb") as file:
        file.write(text.encode())
    return path


def ended(words, standard_input):
    """Status and output of a run, or that it did not end in time."""
    try:
        run = subprocess.run([PROGRAM, *words], stdin=standard_input, capture_output=True, timeout=SECONDS)
    except subprocess.TimeoutExpired:
        return "it did not end", ""
    return run.returncode, run.stdout.decode()


def seconds_so_far():
    """The processor's time of all runs so far."""
    runs = resource.getrusage(resource.RUSAGE_CHILDREN)
    return runs.ru_utime + runs.ru_stime


def grows_with_its_input(checks, name, run, count):
    """A run over n, 2 n and 4 n gives what is stated, and takes little more than twice and four times the processor's time: a square
    would take four and sixteen times. `run` gives what a run of a size answered, and what is stated of it."""
    seconds = []
    for size in (count, 2 * count, 4 * count):
        before = seconds_so_far()
        checks.check(f"{name}, {size}", *run(size))
        seconds.append(seconds_so_far() - before)
    told = ", ".join(f"{time:.2f}" for time in seconds)
    checks.check(f"seconds of {name}: {told}", seconds[2] <= 8 * max(seconds[0], 0.05), True)


def answered(collection, script):
    """Status and output of a script over a collection."""
    lines = file_of("lines", collection)
    with open(file_of("script", script), "rb") as commands:
        return ended([lines], commands)


def rows(places, value):
    """The rows of one node each, and their count."""
    return "".join(f"{line}\t{path}\t{value}\n" for line, path in places) + f"= {len(places)}\n"


def texts_of_brackets(checks):
    """Nesting at most 512 deep, told only of a text that the grammar has."""
    deep = {depth: "[" * depth + "]" * depth for depth in (512, 513, MILLION)}
    lines = [deep[512], deep[513], deep[MILLION], "[" * 513, "[" * MILLION, '{"a":' * 513 + "1" + "}" * 513]
    stated = "2\t!depth\n3\t!depth\n4\t!grammar\n5\t!grammar\n6\t!depth\n" + CHECKED.format(6, 5)
    checks.check("brackets", answered("\n".join(lines) + "\n", "check\n"), (0, stated))


def memory_of_deep_lines(checks):
    """A line that nests too deep takes at most eight times its size in memory at the peak, whether it is JSON or not."""
    script = file_of("script", "check\n")
    for name, opening, closing in (("arrays", "[", "]"), ("elements", "[1,", ""), ("members", '{"a":', ""), ("no end", "[", "")):
        count = 10 * MILLION // len(opening + closing)
        lines = file_of("lines", opening * count + closing * count)
        with subprocess.Popen([PROGRAM, lines, "--script", script], stdout=subprocess.PIPE) as run:
            output = run.stdout.read().decode()
            peak = os.wait4(run.pid, 0)[2].ru_maxrss * 1024
        checks.check(f"deep lines, {name}", output.endswith(CHECKED.format(1, 1)), True)
        told = f"{peak / os.path.getsize(lines):.1f}"
        checks.check(f"memory of deep lines, {name}, times the line: {told}", peak <= 8 * os.path.getsize(lines), True)


def memory_of_what_is_remembered(checks):
    """What is remembered of a line takes at most a hundred bytes for each node that has a child of a child, and for each step that a
    second way leads to; of other nodes nothing is. Five megabytes more are for the query, and for what two runs differ by."""
    def peak_of(lines, command):
        script = file_of("script", f"{command}\n")
        with subprocess.Popen([PROGRAM, lines, "--script", script], stdout=subprocess.PIPE) as run:
            run.stdout.read()
            return os.wait4(run.pid, 0)[2].ru_maxrss * 1024

    flat = "[" + ",".join(["[[]]"] * (MILLION // 2)) + "]\n"
    deep = "[[" + ",".join(["[[[]]]"] * 100_000) + "]]\n"
    cases = [("5,000 descendants", flat, "$" + "..a" * 5000, 0), ("wildcards", flat, "$..*..*..*..zz", 0), ("filters", flat, "$..[?@..*..[?@..zz]]", 0),
             ("wildcards over deep ones", deep, "$..*..*..*..zz", 3), ("filters over deep ones", deep, "$..[?@..*..[?@..zz]]", 4)]
    for name, text, query, steps in cases:
        lines = file_of("lines", text)
        more = peak_of(lines, f"query {query}") - peak_of(lines, "query $.a")
        checks.check(f"memory of what is remembered, {name}: {more} bytes", more <= 100 * 100_000 * steps + 5 * 2**20, True)


def texts_cut_short(checks):
    """No beginning of a text is a text."""
    text = '{"a":[{"b":1},{"b":2}],"b":3}'
    fronts = [text[:count] for count in range(1, len(text))]
    stated = "".join(f"{line}\t!grammar\n" for line in range(1, len(text))) + CHECKED.format(len(text), len(text) - 1)
    checks.check("beginnings of a text", answered("\n".join(fronts + [text]) + "\n", "check\n"), (0, stated))


def texts_of_backslashes(checks):
    """A quote after an even number of backslashes ends its string, wherever the blocks of 64 bytes are cut."""
    lines, refused = [], []
    for last_quote in range(62, 67):
        for backslashes in range(0, 61):
            lines.append('["' + "x" * (last_quote - 2 - backslashes) + "\\" * backslashes + '"]')
            if backslashes % 2:
                refused.append(len(lines))
    stated = "".join(f"{line}\t!grammar\n" for line in refused) + CHECKED.format(len(lines), len(refused))
    checks.check("backslashes before a quote", answered("\n".join(lines) + "\n", "check\n"), (0, stated))


def texts_of_each_form_of_tape(checks):
    """A tape has one word a node for a line of fewer than 1,024 bytes, two for one of fewer than 2,097,152 bytes, and three for a
    longer one. All tell the same nodes, to the last."""
    front, end = '{"a":[1,{"b":"', '"}],"last":[0,{"c":null}]}'
    for length in [limit + off for limit in (1_024, 2_097_152) for off in (-1, 0, 1)]:
        text = "x" * (length - len(front) - len(end))
        script = "query $.last[1].c\nquery $..b\nquery $.a[-1]..c\nquery $[?@[1].b].c\n"
        stated = rows([(1, "$['last'][1]['c']")], "null") + rows([(1, "$['a'][1]['b']")], f'"{text}"') + "= 0\n= 0\n"
        checks.check(f"a line of {length} bytes", answered(front + text + end + "\n", script), (0, stated))
        # as many nodes as a line of this length can have
        count = (length - 1) // 2
        line = "[" + ",".join(["1"] * (count - 1) + ["2"]) + " " * (length - 1 - 2 * count) + "]"
        script = "query $[-1]\nquery $[?@>1]\nquery $[?@>2]\n"
        last = rows([(1, f"$[{count - 1}]")], "2")
        checks.check(f"{count} elements in {length} bytes", answered(line + "\n", script), (0, last + last + "= 0\n"))


def lines_behind_long_ones(checks):
    """A line is told apart from those around it where one of them is longer than what is scanned at once."""
    long = '"' + "x" * 1_100_000 + '"\n'
    stated = "2\t!grammar\n" + "3\t$[0]\t2\n" + "6\t$[0]\t3\n= 2\n"
    checks.check("lines behind long ones", answered(f'{long}"x\n[2]\n{long}\n[3]', "query $[0]\n"), (0, stated))


def objects_of_many_members(checks):
    """The last of many members is sought by its index."""
    members = "".join(f',"m{number}":{number}' for number in range(4000))
    script = "index $.m3999\nexplain $.m3999\nquery $.m3999\n"
    stated = "indexed 1\nseek $['m3999']\nopen 1 of 2\n" + rows([(1, "$['m3999']")], "3999")
    checks.check("the last of many members", answered('{"first":0' + members + "}\n{}\n", script), (0, stated))


def many_lines(checks):
    """A plan over more than a million lines, an index of as many keys, and look-ups that find all, half and one of them."""
    count = 1_100_000
    lines = "".join(f'{{"a":{number}}}\n' for number in range(count))
    found = [f"{number + 1}\t$['a']\t{number}\n" for number in range(count)]
    half = count // 2
    plan = "guard $['a'] {} {}\nchild 1\nopen {} of {}\n"
    script = "explain $.a\nquery $.a\nindex $.a\nexplain $[?$.a>=0]\nquery $[?$.a>=0]\nquery $.a\n"
    stated = "scan\nwalk ['a']\n" + f"open {count} of {count}\n" + "".join(found) + f"= {count}\nindexed {count}\n"
    stated += plan.format(">=", 0, count, count) + ("".join(found) + f"= {count}\n") * 2
    script += f"explain $[?$.a<{half}]\nquery $[?$.a<{half}]\nquery $[?$.a=={count - 1}]\n"
    stated += plan.format("<", half, half, count) + "".join(found[:half]) + f"= {half}\n" + found[-1] + "= 1\n"
    checks.check("more than a million lines", answered(lines, script), (0, stated))


def lines_of_one_key(checks):
    """Lines that have one key are all found by it, in their order."""
    count = 100_000
    script = "index $[0]\nexplain $[?$[0]<=true]\nquery $[?$[0]<=true]\n"
    stated = f"indexed {count}\nguard $[0] <= true\nchild 1\nopen {count} of {count + 1}\n" + rows([(line + 1, "$[0]") for line in range(count)], "true")
    checks.check("lines of one key", answered("[true]\n" * count + "{}\n", script), (0, stated))


def edits_of_many_lines(checks):
    """As many edits as there are lines, under an index: their keys rise, fall, are equal or scattered."""
    count = 400_000
    orders = {"rising": lambda number: count + number, "falling": lambda number: -number, "equal": lambda number: -1, "scattered": lambda number: number * 7919 % count}
    for name, key_of in orders.items():
        keys = [key_of(number) for number in range(count)]
        script = "index $.a\n" + "".join(f'replace {number + 1} {{"a":{key}}}\n' for number, key in enumerate(keys))
        stated = f"indexed {count}\n" + "".join(f"replaced {number + 1}\n" for number in range(count))
        least, most, middle = min(keys), max(keys), sorted(keys)[count // 2]
        for operator, bound in (("<=", least), (">=", most), ("<", middle), ("==", middle)):
            found = [number + 1 for number, key in enumerate(keys) if {"<=": key <= bound, ">=": key >= bound, "<": key < bound, "==": key == bound}[operator]]
            script += f"query $[?$.a{operator}{bound}]\n"
            stated += "".join(f"{line}\t$['a']\t{keys[line - 1]}\n" for line in found) + f"= {len(found)}\n"
        checks.check(f"edits with {name} keys", answered("".join(f'{{"a":{number}}}\n' for number in range(count)), script), (0, stated))


def texts_of_numbers(checks):
    """Numbers are exact, whatever their digits; an exponent has at most 15 digits after its leading zeros."""
    digits = "1" + "0" * MILLION
    checks.check("a number of a million digits", answered(f"[{digits}]\n", f"query $[?@==1e{MILLION}]\nquery $[?@<1e{MILLION}]\n"), (0, rows([(1, "$[0]")], digits) + "= 0\n"))
    lines = [f"[1e{'9' * 15}]", f"[1e{'0' * 99}{'9' * 15}]", f"[1e{'9' * 16}]", "[0e-" + "1" * 16 + "]"]
    checks.check("exponents", answered("\n".join(lines) + "\n", "check\n"), (0, "3\t!number\n4\t!number\n" + CHECKED.format(4, 2)))
    script = f"query $[?@==1e{'9' * 15}]\nquery $[?@==1e{'9' * 16}]\n"
    checks.check("exponents of a query", answered("[1]\n", script), (0, "= 0\nerror: query number\n"))


def texts_of_names(checks):
    """Many names, and many alike: told in the time of a sort."""
    count = 200_000
    names = [f'"{number}{"x" * 16}":0' for number in range(count)]
    apart, alike = "{" + ",".join(names) + "}", "{" + ",".join(names) + ',"199999' + "x" * 16 + '":1}'
    checks.check("many names", answered(f"{apart}\n{alike}\n", "check\n"), (0, "2\t!duplicate\n" + CHECKED.format(2, 1)))


def queries(checks):
    """A query of at most 65,535 bytes and 512 brackets; integers within the exact ones of I-JSON."""
    at_most = "$." + "a" * (65_535 - 2)
    checks.check("bytes of a query", answered("{}\n", f"query {at_most}\nquery {at_most}a\n"), (0, "= 0\nerror: query size\n"))
    sized = [("$" + "[0]" * 512, ""), ("$" + "[0]" * 513, "size"), ("$['" + "(" * 511 + "']", ""), ("$['" + "(" * 512 + "']", "size"),
             ("$[?" + "(" * 511 + "@.a", "syntax"), ("[" * 513, "size"), ("[" * 512, "syntax"), ("a" * 65_535, "syntax"), ("a" * 65_536, "size"),
             ("$[" + "0," * 32_765 + "0]", ""), ("$[" + "0," * 32_765 + f"{2**53}]", "size"), ("$[?count(1)==1" + "&&@.a" * 10_000 + "]", "types")]
    stated = "".join(f"error: query {word}\n" if word else "= 0\n" for _, word in sized)
    checks.check("the size is the first fault", answered("{}\n", "".join(f"query {text}\n" for text, _ in sized)), (0, stated))
    nested = {count: "$" + "[?@" * count + "]" * count for count in (512, 513)}
    checks.check("filters within filters", answered("[" * 510 + "1" + "]" * 510 + "\n", f"query {nested[512]}\nquery {nested[513]}\n"),
                 (0, "= 0\nerror: query size\n"))
    in_brackets = {count: "$[?" + "(" * (count - 1) + "@" + ")" * (count - 1) + "]" for count in (512, 513)}
    checks.check("parentheses of a query", answered("[1]\n", f"query {in_brackets[512]}\nquery {in_brackets[513]}\n"),
                 (0, rows([(1, "$[0]")], "1") + "error: query size\n"))
    script = f"query $[{2**53 - 1}]\nquery $[-{2**53 - 1}]\nquery $[{2**53}]\nquery $[-{2**53}]\n"
    checks.check("integers of a query", answered("[1]\n", script), (0, "= 0\n= 0\nerror: query integer\nerror: query integer\n"))
    kept = "".join(f"index $.a{number}\n" for number in range(17)) + "index $.a0\n"
    checks.check("indexes", answered("{}\n", kept), (0, "indexed 0\n" * 16 + "error: index limit\nerror: index exists\n"))


def patterns(checks):
    """A pattern of at most 256 parentheses and counts of at most 999,999,999; counts within counts take no time of their own."""
    def matched(text, pattern):
        return answered(f'["{text}"]\n', f"query $[?match(@,'{pattern}')]\n")

    found, none = (lambda text: (0, rows([(1, "$[0]")], f'"{text}"'))), (0, "= 0\n")
    cases = [("aaa", "(a{0,999999999}){999999999}", True), ("aaaa", "(a{2}){999999999}", False),
             ("aaaa", "(a{2}){2,999999999}", True), ("aaaaa", "(a{2}){2,999999999}", False), ("", "(){999999999}", True),
             ("a", "a{0,999999999}", True), ("a", "a{0,1000000000}", False),
             ("a", "(" * 256 + "a" + ")" * 256, True), ("a", "(" * 257 + "a" + ")" * 257, False)]
    nested = "(" * 40 + "a" + "){0,9}" * 40
    cases += [("aaa", nested, True), ("aab", nested, False)]
    for text, pattern, matches in cases:
        checks.check(f"{pattern[:40]} on {text!r}", matched(text, pattern), found(text) if matches else none)


def long_texts(checks):
    """Long texts under patterns and comparisons that may not cost the square of them."""
    long = "a" * MILLION
    script = "query $[?match(@,'a*')]\nquery $[?search(@,'b')]\nquery $[?@==$[0]]\nquery $[?length(@)==1000000]\n"
    row = rows([(1, "$[0]")], f'"{long}"')
    checks.check("a string of a million scalars", answered(f'["{long}"]\n', script), (0, row + "= 0\n" + row + row))
    cases = [("match", "(.|\\\\n)*", True), ("match", "a{64}b*a*", True), ("match", ".{0,99999}", False),
             ("match", ".{99999}", False), ("search", ".{99999}", True), ("search", "a{1000000}", True), ("search", "a{1000001}", False),
             ("match", "(.|\\\\n)*|x{64}", True), ("search", "(.|\\\\n)*|x{64}", True),
             ("match", "(a{64}|b)*", True), ("match", "(a{63}|b)*", False), ("search", "(a{64}|c)*b", False),
             ("match", "((a{64}|aa)*c?)*b", False), ("match", "((a{64}|b)*c?)*", True), ("search", "(aa){999}", True),
             ("search", "(aa){500000}", True), ("search", "(aa){500001}", False), ("match", "(a|b){1000000}", True),
             ("match", "(a|b){999999}", False), ("match", "((a|b){2}){500000}", True)]
    for function, pattern, is_found in cases:
        script = f"query $[?{function}(@,'{pattern}')]\n"
        checks.check(f"{function} of {pattern} on a million scalars", answered(f'["{long}"]\n', script), (0, row if is_found else "= 0\n"))
    longer = "a" * 10 * MILLION
    checks.check("search of (aa){999} on ten million scalars", answered(f'["{longer}"]\n', "query $[?search(@,'(aa){999}')]\n"), (0, rows([(1, "$[0]")], f'"{longer}"')))
    shorter = "a" * 50_000
    script = "query $[?match(@,'.{99999}')]\nquery $[?search(@,'.{99999}')]\n"
    checks.check("a count beyond the text", answered(f'["{shorter}"]\n', script), (0, "= 0\n= 0\n"))
    short = ",".join(['"a"', '"\\u0061"'] * 100_000)
    script = "query $[?@==$[-1]]\nquery $[?@>$[-1]]\n"
    checks.check("short strings against a long one", answered(f'[{short},"{long * 4}"]\n', script), (0, rows([(1, "$[200000]")], f'"{long * 4}"') + "= 0\n"))
    many = "[" + ",".join(["1"] * 100_000) + "]"
    checks.check("each element against the last", answered(f"{many}\n", "query $[?@ != $[-1]]\n"), (0, "= 0\n"))


def turns_in_turns(checks):
    """Parts that take turns in one another, on texts that are long for them."""
    deep = "(" * 250 + "a{64}b?"
    cases = [(100_000, "((a?){999}){999}b", False), (200_000, "(a|b){99999}b", False), (200_000, "(a|b){200000}", True),
             (MILLION, deep + ")*" * 250, True), (100_000, deep + "){0,2}" * 250, False), (1_000, deep + "c)*" + ")*d?" * 249, False),
             (1_000, "(" * 240 + "x" * 39_000 + "){1}" * 240 + "(((a*)b*)*c)*", False), (1_000, "(" * 240 + "x" * 39_000 + "){2}a" * 240, False)]
    for length, pattern, matches in cases:
        text = "a" * length
        stated = rows([(1, "$[0]")], f'"{text}"') if matches else "= 0\n"
        checks.check(f"{pattern[:40]} on {length} scalars", answered(f'["{text}"]\n', f"query $[?match(@,'{pattern}')]\n"), (0, stated))
    text = "a" * 200_000
    pattern = f"((ab{text}){{2}}|a)*"
    checks.check("a long part that is counted, from each position", answered(f'["{text}","{pattern}"]\n', "query $[?match(@,$[1])]\n"), (0, rows([(1, "$[0]")], f'"{text}"')))


def many_words(checks):
    """A search for one of many words, in a text that has the last of them at its end and the beginnings of all."""
    rng = random.Random(1)
    for count in (1_000, 3_000, 9_000):
        chosen = ["".join(rng.choice("abcdefghijklm") for _ in range(rng.randrange(2, 4))) + "z" for _ in range(count)]
        text = "".join(rng.choice("abcdefghijklm") for _ in range(40_000))
        script = f"query $[?search(@,'{'|'.join(chosen)}')]\n"
        checks.check(f"a search for {count} words", answered(f'["{text}","{text}{chosen[-1]}"]\n', script), (0, rows([(1, "$[1]")], f'"{text}{chosen[-1]}"')))


def long_numbers(checks):
    """A long number is read once a line, and compared with each short one no further than that one goes."""
    count = 100_000
    zeros = "0" * MILLION
    cases = [("an integer", "1" * MILLION, "1", "<"), ("an integer of zeros", "1" + zeros, f"1e{MILLION}", "=="),
             ("a fraction of zeros", f"0.{zeros}1", f"1e-{MILLION + 1}", "=="), ("a far exponent", f"0.{zeros}1e{MILLION + 1}", "1", "=="),
             ("a long end", f"1.{zeros}1", "1.0", "<"), ("nothing but zeros", f"-0.{zeros}", "0e7", "==")]
    for name, long, short, holds in cases:
        line = f'{{"long":{long},"short":[{",".join([short] * count)}]}}\n'
        all_rows = rows([(1, f"$['short'][{index}]") for index in range(count)], short)
        script = "query $.short[?@==$.long]\nquery $.short[?$.long>@]\n"
        stated = all_rows + "= 0\n" if holds == "==" else "= 0\n" + all_rows
        checks.check(f"short numbers against {name}", answered(line, script), (0, stated))


def objects_turned(checks):
    """Objects of many members in opposite orders are compared in the time of a sort."""
    count = 100_000
    members = [f'"{number}":{number}' for number in range(count)]
    one, other = "{" + ",".join(members) + "}", "{" + ",".join(reversed(members)) + "}"
    for name, last, places in (("equal", other, [(1, "$[0]['c']")]), ("unlike", other[:-2] + "1}", [])):
        line = f'[{{"a":{one},"b":{last},"c":true}}]\n'
        checks.check(f"{name} objects in opposite orders", answered(line, "query $[?@.a==@.b].c\n"), (0, rows(places, "true")))


def large_objects(checks):
    """Objects of 101 members are equal in any order and spelling, and unlike where one member differs in its name or its value."""
    def written(step, escaped=101, other=101, renamed=101):
        members = []
        for number in (turn * step % 101 for turn in range(101)):
            letter = "j" if number == renamed else "\\u006b" if number == escaped else "k"
            members.append(f'"{letter}{number}":{"[]" if number == other else "[1.0]"}')
        return "{" + ",".join(members) + "}"

    plain = written(1)
    equal = [written(step, escaped=70) for step in (1, 100, 2, 37)]
    unlike = [text for number in (0, 50, 100) for text in (written(100, other=number), written(37, renamed=number))]
    pairs = [pair for other in equal + unlike for pair in ((plain, other), (other, plain))]
    within = [(f'[{{"a":1,"b":{plain}}}]', f'[{{"b":{written(100)},"a":1e0}}]'), (f'[{{"a":1,"b":{plain}}}]', f'[{{"b":{written(2, other=33)},"a":1}}]'),
              (f'[{{"a":1,"b":{plain}}}]', '[{"a":1,"b":{}}]')]
    lines = "".join(f'[{{"pair":[{left},{right}],"at":{at}}}]\n' for at, (left, right) in enumerate(pairs + within))
    places = [at for at in range(len(pairs) + len(within)) if at < 2 * len(equal) or at == len(pairs)]
    stated = "".join(f"{at + 1}\t$[0]['at']\t{at}\n" for at in places) + f"= {len(places)}\n"
    script = "query $[?@.pair[0]==@.pair[1]].at\nquery $[?@.pair[0]<=@.pair[1]].at\nquery $[?!(@.pair[0]!=@.pair[1])].at\n"
    checks.check("objects of 101 members", answered(lines, script), (0, stated * 3))


def filters_from_the_root(checks):
    """A filter within a filter that asks of the root is answered once, and not once for each node of those around it."""
    nested = "$" + "[?$" * 255 + "]" * 255
    elements = [(1, f"$[{index}]") for index in range(1000)]
    checks.check("filters from the root", answered("[" + ",".join(["1"] * 1000) + "]\n", f"query {nested}\n"), (0, rows(elements, "1")))
    many = "[" + "[0]," * 100_000 + "5]"
    for query in ("$..[?$[-1]==6]", "$[*][?$[-1]==6]", "$[?@[?$[-1]==6]]", "$[?$..[?$[-1]==6]]"):
        checks.check(f"a filter of the last element of many, {query}", answered(f"{many}\n", f"query {query}\n"), (0, "= 0\n"))


def filters_of_many_roots(checks):
    """Queries from the root within one another are answered one by one: none is walked within another, so a stack of a megabyte is
    enough for what has no more of them than reading the query takes."""
    def nested(times):
        return ("$" + ".*" * 80 + "[?") * times + "$" + "]" * times

    elements = "[" + ",".join(["1"] * 1000) + "]"
    for line in ("[" * 512 + "]" * 512, elements):
        grows_with_its_input(checks, "filters of many roots", lambda size: (answered(line + "\n", f"query {nested(size)}.zz\n"), (0, "= 0\n")), 95)
        limit = lambda: resource.setrlimit(resource.RLIMIT_STACK, (2**20, 2**20))
        lines, script = file_of("lines", line + "\n"), file_of("script", f"query {nested(60)}.zz\n")
        run = subprocess.run([PROGRAM, lines, "--script", script], capture_output=True, timeout=SECONDS, preexec_fn=limit)
        checks.check("filters of many roots with a stack of a megabyte", (run.returncode, run.stdout), (0, b"= 0\n"))


def questions_of_a_filter(checks):
    """Where jpgrep shows no nodes, one is enough: lines, counts and names take the time and the memory of a condition, although the
    query selects some million nodes of nested arrays."""
    limit = lambda: resource.setrlimit(resource.RLIMIT_AS, (2**26, 2**26))
    for depth, steps in ((200, 4), (200, 6), (512, 3), (512, 4)):
        line = "[" * depth + "]" * depth
        lines = file_of("lines", line + "\n")
        for option, written in (("-c", "1\n"), ("-q", ""), ("-l", lines + "\n"), ("-h", line + "\n")):
            words = [FILTER, option, "$" + "..*" * steps, lines]
            before = seconds_so_far()
            run = subprocess.run(words, capture_output=True, timeout=SECONDS, preexec_fn=limit)
            name = f"jpgrep {option} of {steps} descents in {depth} arrays"
            checks.check(name, (run.returncode, run.stdout.decode()), (0, written))
            checks.check(f"seconds of {name}", seconds_so_far() - before <= 0.5, True)


def lines_beyond_memory(checks):
    """In little memory jpgrep gives up a line whose answer needs more, and reads on; of a file with a line that needs more it passes
    over the rest, and reads the next file. It tells which line of which file, and its status is 2."""
    limit = lambda: resource.setrlimit(resource.RLIMIT_AS, (2**26, 2**26))
    nested = "[" * 400 + "]" * 400
    asked = file_of("asked", '{"a":1}\n' + nested + '\n{"a":3}\nx\n[[4]]\n')
    long = file_of("long", '{"a":1}\n\n{"a":[' + "1," * 9 * MILLION + '1]}\n{"a":3}\nx\n')
    short = file_of("short", '{"a":5}\n{"b":6}\n')
    given_up, unread = f"jpgrep: {asked}:2: out of memory\n", f"jpgrep: {long}:3: out of memory; the rest is not searched\n"
    refused = f"jpgrep: {asked}:4: grammar\n"
    for words, written, told in (
        (["-o", "-n", "-e", "$.a", "-e", "$..*..*..*..*", asked, short], f"{asked}:1:1\n{asked}:3:3\n{short}:1:5\n", given_up + refused),
        (["-o", "-h", "-s", "-m2", "-e", "$..*..*..*..*", "-e", "$[0][0]", "-e", "$.a", asked], "1\n3\n", given_up),
        (["-c", "-e", "$..*..*..*..*", asked, short], f"{asked}:1\n{short}:0\n", refused),
        (["-n", "-e", "$.a", long, short], f'{long}:1:{{"a":1}}\n{short}:1:{{"a":5}}\n', unread),
        (["-c", "-s", "-e", "$", long, short], f"{long}:1\n{short}:2\n", unread),
        (["-L", "-e", "$.z", long, short], short + "\n", unread),
        (["-l", "-e", "$.a", long, short], f"{long}\n{short}\n", ""),
        (["--json", "-n", "-e", "$.a", long, short], f'{long}:1:{{"a":1}}\n{short}:1:{{"a":5}}\n', unread.replace(":3:", ":2:")),
    ):
        run = subprocess.run([FILTER, *words], capture_output=True, timeout=SECONDS, preexec_fn=limit)
        status = 0 if not told else 2
        checks.check(f"jpgrep {words[:3]} in little memory", (run.returncode, run.stdout.decode(), run.stderr.decode()), (status, written, told))


def lines_of_megabytes(checks):
    """A line of many bytes is a line, however it is cut into reads, and the lines after it are answered."""
    text = "x" * 5 * MILLION
    lines = file_of("lines", f'{{"a":1}}\n{{"a":"{text}"}}\n{{"a":3}}\n')
    for words, written in ((["-c", "$"], "3\n"), (["-on", "$.a"], f'1:1\n2:"{text}"\n3:3\n'), (["--json", "-c", "$"], "3\n")):
        run = subprocess.run([FILTER, *words, lines], capture_output=True, timeout=SECONDS)
        checks.check(f"jpgrep {words} of a line of {len(text)} bytes", (run.returncode, run.stdout.decode(), run.stderr), (0, written, b""))


def nodes_one_by_one(checks):
    """The nodes of a query are asked one by one in time that grows with their number, and in the memory of their list."""
    limit = lambda: resource.setrlimit(resource.RLIMIT_AS, (2**28, 2**28))
    flat, deep = file_of("flat", "[" + "1," * (MILLION - 1) + "2]\n"), file_of("deep", "[" * 512 + "]" * 512 + "\n")
    for words, written in (
        (["-c", "--each", "$[*]", "-w", "@ == 1", flat], f"{MILLION - 1}\n"),
        (["-np", "--each", "$[*]", "-w", "@ > 1", flat], f"1:$[{MILLION - 1}]\t2\n"),
        (["-m", "2", "--each", "$[*]", flat], "1\n1\n"),
        (["-c", "--each", "$..*", "-w", "@..*", deep], "510\n"),
        (["-c", "--each", "$..*", "-e", "@..*..*", deep], "509\n"),
    ):
        before = seconds_so_far()
        run = subprocess.run([FILTER, *words], capture_output=True, timeout=SECONDS, preexec_fn=limit)
        name = f"jpgrep {words[:-1]}"
        checks.check(name, (run.returncode, run.stdout.decode(), run.stderr), (0, written, b""))
        checks.check(f"seconds of {name}", seconds_so_far() - before <= 1.5, True)


def tables_of_many_columns(checks):
    """The members of a wide table's columns are found together, and not each by a walk over all members."""
    for columns, count, most in ((2_000, 100, 0.5), (10_000, 20, 1)):
        lines = file_of("wide", ("{" + ",".join(f'"n{place}":{place}' for place in range(columns)) + "}\n") * count)
        words = [word for place in range(columns) for word in ("-e", f"$.n{place}")]
        before = seconds_so_far()
        run = subprocess.run([FILTER, "--csv", *words, lines], capture_output=True, timeout=SECONDS)
        written = (",".join(map(str, range(columns))) + "\n") * count
        checks.check(f"a table of {columns} columns", (run.returncode, run.stdout.decode(), run.stderr), (0, written, b""))
        checks.check(f"seconds of a table of {columns} columns", seconds_so_far() - before <= most, True)


def conditions_of_the_root(checks):
    """What a filter asks of the root is answered once in a line, beside whatever it asks of each child."""
    text, numbers = "ab" * 200_000, list(range(20_000))
    line = '{"t":"%s","p":"(ab)*","q":"[a-c]{1,40}","l":%s}' % (text, str(numbers).replace(" ", ""))
    found = {1: rows([(1, "$['l'][0]")], "0"), 0: "= 0\n"}
    asked = {'search($.t,"bb")': 0, "match($.t,$.p)": 1, "length(value($..t))==400000": 1, "$==$": 1, "$.l!=$.l": 0, "match($.q,$.p)": 0}
    script = "".join(f"query $.l[?{condition} && @<1]\n" for condition in asked)
    script += "query $[?$!=$]\nquery $..[?$!=$]\nquery $.l[?match(@,$.q)]\n"
    stated = "".join(found[answer] for answer in asked.values()) + "= 0\n" * 3
    checks.check("conditions of the root", answered(line + "\n", script), (0, stated))


def texts_from_the_root(checks):
    """A text of the root that has an escape is unescaped once in a line, and not for each child that it is asked of."""
    def compared(count):
        line = '{"s":"\\u0061%s","a":[%s]}' % ("b" * count, ",".join(["1"] * count))
        return answered(line + "\n", f"query $.a[?@==2 || $.s=='a{'b' * count}c']\n"), (0, "= 0\n")

    grows_with_its_input(checks, "texts from the root", compared, 15_000)


def counts_of_many_nodes(checks):
    """`count` keeps none of the millions of nodes that it counts, so it needs little memory and the time of going over them."""
    def counted(line, query):
        lines, script = file_of("lines", line + "\n"), file_of("script", f"query {query}\n")
        limit = lambda: resource.setrlimit(resource.RLIMIT_AS, (64 * 2**20, 64 * 2**20))
        run = subprocess.run([PROGRAM, lines, "--script", script], capture_output=True, timeout=SECONDS, preexec_fn=limit)
        return (run.returncode, run.stdout), (0, b"= 0\n")

    def of_elements(count):
        return counted(f"[[{','.join('1' * count)}]]", f"$[?count(@[{','.join('*' * 8)}])!={8 * count}]")

    checks.check("a count of many nodes in 64 MB", *counted("[" * 145 + "]" * 145, "$[?count(@..*..*..*..*)==0]"))
    grows_with_its_input(checks, "counts in 64 MB", of_elements, 100_000)


def nodes_met_again(checks):
    """What a query selects from a node by a second way is not looked for again, by however many ways they come to it: where the nodes
    are listed, where they are counted, and where one decides. A stack of two megabytes is enough for it."""
    limit = lambda: resource.setrlimit(resource.RLIMIT_STACK, (2 * 2**20, 2 * 2**20))

    def asked(line, query):
        lines, script = file_of("lines", line + "\n"), file_of("script", f"query {query}\n")
        run = subprocess.run([PROGRAM, lines, "--script", script], capture_output=True, timeout=SECONDS, preexec_fn=limit)
        return run.returncode, run.stdout.decode()

    def nested(depth, within=""):
        return "[" * depth + within + "]" * depth

    none, deep = (0, "= 0\n"), nested(512)
    one = (0, rows([(1, "$[0]")], nested(511)))
    objects, names = '{"a":' * 256 + "1" + "}" * 256, "$" + "..a" * 128 + "..zz"
    cases = [(deep, query, none) for query in ("$..*..*..*..*..zz", "$..*..[0,*]..[?@.zz].*..zz", "$[?@..*..*..*..*..zz]",
                                               "$[?count(@..*..*..*..*..zz)>0]", "$[?value(@..*..*..*..*..zz)==1]")]
    cases += [(deep, f"$[?count(@{'..*' * steps})>1]", one) for steps in (3, 5, 8)] + [(deep, f"$[?count(@{'..*' * 20})>1]", (0, "error: memory\n"))]
    for times in (24, 60):
        for pair in ("[0,0]", "[*,0]", "['a',0,'a',0]"):
            twice = "@" + pair * times
            cases += [(deep, f"${pair * times}.a", none), (deep, f"$[?count({twice})>1]", one), (deep, f"$[?value({twice}.a)==1]", none),
                      (deep, f"$[?!{twice}.a]", one)]
    filters = "@.*"
    for _ in range(8):
        filters = f"!@..[?{filters}]"
    for line, query, stated in cases + [(objects, names, none), (deep, f"$[?{filters}]", none)]:
        before = seconds_so_far()
        checks.check(f"nodes met again by {query[:40]}", asked(line, query), stated)
        checks.check(f"a second for nodes met again by {query[:40]}", seconds_so_far() - before < 1, True)

    zeros, filters = ",".join("0" * MILLION), "@..zz"
    for _ in range(5):
        filters = f"@..[?{filters}]"
    for depth in (40, 80, 160, 500):
        for query in (f"$[?{filters}]", "$..*..*..*..*..*..zz"):
            before = seconds_so_far()
            checks.check(f"a million zeros in {depth} arrays, {query[:20]}", asked(nested(depth, zeros), query), none)
            checks.check(f"seconds of a million zeros in {depth} arrays, {query[:20]}", seconds_so_far() - before < 2, True)

    grows_with_its_input(checks, "descents of a query", lambda count: (asked(deep, "$" + "..*" * count + "..zz"), none), 20)
    grows_with_its_input(checks, "descents that are counted", lambda count: (asked(deep, f"$[?count(@{'..*' * count}..zz)>0]"), none), 20)
    grows_with_its_input(checks, "unions of a query", lambda count: (asked(deep, f"$[?@{'[0,0]' * count}.zz]"), none), 60)
    grows_with_its_input(checks, "arrays behind others", lambda count: (asked(nested(60, ",".join(["[[0]]"] * count)), "$" + "..*" * 10 + "..zz"), none), 10_000)
    grows_with_its_input(checks, "indexes by two ways", lambda count: (asked(deep, f"$[?count(@[{','.join('0' * count)}][{','.join('0' * count)}])<{count**2}]"), none), 2_500)


def indexes_of_one_array(checks):
    """The elements of an array are counted once for all indexes of a segment, and each is looked for from the one before it on."""
    length = 100_000
    line = "[" + ",".join(["1"] * length) + "]\n"

    def selected(indexes):
        text = ",".join(str(index) for index in indexes)
        places = [(1, f"$[{index % length}]") for index in indexes]
        return answered(line, f"query $[{text}]\n"), (0, rows(places, "1"))

    grows_with_its_input(checks, "the last element again", lambda count: selected([-1] * count), 2_500)
    grows_with_its_input(checks, "indexes that rise", lambda count: selected(range(count)), 2_500)
    grows_with_its_input(checks, "the last elements in their order", lambda count: selected(range(-count, 0)), 2_500)


def checks_of_many_lines(checks):
    """`check` looks at the refused lines alone, so as many checks as lines take little more than their rows."""
    def checked(count):
        lines = "".join("[1\n" if number == count // 2 else "[1]\n" for number in range(count))
        return answered(lines, "check\n" * count), (0, f"{count // 2 + 1}\t!grammar\n{CHECKED.format(count, 1)}" * count)

    grows_with_its_input(checks, "checks", checked, 20_000)


def queries_of_one_line(checks):
    """An index knows the lines that have its path, so as many queries as lines, of a path that one has, take little more than rows."""
    def asked(count):
        lines = "".join('{"b":1}\n' if number == count // 2 else '{"a":1}\n' for number in range(count))
        return answered(lines, "index $.b\n" + "query $.b\n" * count), (0, "indexed 1\n" + rows([(count // 2 + 1, "$['b']")], "1") * count)

    grows_with_its_input(checks, "queries of one line", asked, 20_000)


def devices(checks):
    """A script that comes byte by byte, and an answer before the next command is sent."""
    lines = file_of("lines", '{"a":1}\n')
    row = b"1\t$['a']\t1\n= 1\n"
    with subprocess.Popen([PROGRAM, lines], stdin=subprocess.PIPE, stdout=subprocess.PIPE, bufsize=0) as run:
        for byte in b"query $.a\nquery $.a":
            run.stdin.write(bytes([byte]))
        run.stdin.close()
        checks.check("a script byte by byte", run.stdout.read(), row * 2)
    with subprocess.Popen([PROGRAM, lines], stdin=subprocess.PIPE, stdout=subprocess.PIPE, bufsize=0) as run:
        for turn in range(3):
            run.stdin.write(b"query $.a\n")
            os.set_blocking(run.stdout.fileno(), False)
            got, until = b"", time.monotonic() + SECONDS
            while len(got) < len(row) and time.monotonic() < until:
                got += run.stdout.read(len(row)) or b""
                time.sleep(0.001)
            checks.check(f"answer {turn + 1} before the next command", got, row)
        run.stdin.close()


def available_memory():
    """The bytes of memory that a program may take here."""
    with open("/proc/meminfo", encoding="ascii") as file:
        words = dict(line.split(":") for line in file)
    return int(words["MemAvailable"].split()[0]) * 1024


def sizes(checks):
    """A collection and a script of at most 2^32 - 1 bytes. After their first line the
    files are one of zeros, with no block on the disk."""
    if available_memory() < 14 * 2**30:
        print("skipped: a collection and a script of 2^32 bytes, as less than 14 GiB of memory are free")
        checks.skipped += 3
        return
    small, large = file_of("small", "1\n"), file_of("large", "check\n")
    os.truncate(large, MOST_BYTES + 1)
    checks.check("a collection of 2^32 bytes", ended([large, "--script", file_of("check", "check\n")], subprocess.DEVNULL), (12, ""))
    checks.check("a script of 2^32 bytes", ended([small, "--script", large], subprocess.DEVNULL), (14, CHECKED.format(1, 0)))
    os.truncate(large, MOST_BYTES)
    checks.check("a script of 2^32 - 1 bytes", ended([small, "--script", large], subprocess.DEVNULL), (0, CHECKED.format(1, 0) + "error: command\n"))
    os.remove(large)


def main():
    checks = Checks()
    for part in (texts_of_brackets, memory_of_deep_lines, memory_of_what_is_remembered, texts_cut_short,
                 texts_of_backslashes, texts_of_each_form_of_tape, lines_behind_long_ones, objects_of_many_members,
                 many_lines, lines_of_one_key, edits_of_many_lines, texts_of_numbers, texts_of_names, queries, patterns, many_words,
                 long_texts, turns_in_turns, long_numbers, objects_turned, large_objects, filters_from_the_root,
                 filters_of_many_roots, questions_of_a_filter, lines_beyond_memory, lines_of_megabytes, nodes_one_by_one,
                 tables_of_many_columns,
                 conditions_of_the_root, texts_from_the_root, counts_of_many_nodes, nodes_met_again, indexes_of_one_array,
                 checks_of_many_lines, queries_of_one_line, devices, sizes):
        part(checks)
    print(f"limits: {checks.passed} passed, {checks.failed} failed, {checks.skipped} skipped")
    return 1 if checks.failed else 0


sys.exit(main())
