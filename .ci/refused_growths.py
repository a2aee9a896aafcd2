"""Runs the program with each growth refused in turn, and says whether every run ended as stated.

    refused_growths.py PROGRAM FOLDER LIBRARY

FOLDER is for files. LIBRARY is `refuse.c` as it was built; where it is empty no growth can be refused, and the scripts are
run without. What is stated of a run is what the program itself writes when no growth is refused, for the first commands, or
with the command left out in which the growth was refused; what it writes for all commands is written out below.

A run has to end with status 16 and the answers of the first commands before one, of none where the growth was refused while
loading; or with status 0 where one command answered `error: memory`, one that may, and all others as without it. Status 16
after the loading is for a command line that could not be held: the memory that holds one serves those after it and doubles
where it is short, so there are as many such runs as doublings, and a growth of the command itself is told by it. A growth
that is refused to `collect` of the library is asked for again at once, since it may have been asked for with too high a hint.
Such a run may answer all commands, and then a second one, in which it is refused both times, has to end as above.
"""
import os
import subprocess
import sys
import time

PROGRAM, FOLDER, LIBRARY = sys.argv[1:]
MEMORY = "error: memory\n"
# What a command answers that wants no memory: one that is empty, and one that is unknown.
WITHOUT_MEMORY = ("", "error: command\n")
NO_MEMORY = "jpq: out of memory\n"
ASKED_AGAIN = "refused\nasked again\n"
END = time.monotonic() + 70
MOST_TOLD = 20

Q = "$.items[?$.kind=='book' && @.p>1]"
BOOKS = '{"kind":"book","items":[{"p":1},{"p":2}]}\n{"kind":"pen","items":[{"p":1}]}\nx'
BOOKS_SCRIPT = f"""index $.kind
index $.items[0].p
indexes
explain {Q}
query {Q}
query $[?search(@,'oo')]
check
drop $.kind
explain {Q}
append {{"kind":"book"}}
replace 2 {{}}
query $.kind
check
"""
BOOKS_OUTPUT = """indexed 2
indexed 2
$['kind']
$['items'][0]['p']
= 2
guard $['kind'] == 'book'
walk ['items']
child 1
open 1 of 2
1	$['items'][1]	{"p":2}
3	!grammar
= 1
1	$['kind']	"book"
3	!grammar
= 1
3	!grammar
= 3 lines, 1 refused, 0 blank
dropped
scan
walk ['items']
child 1
open 2 of 2
appended 4
replaced 2
1	$['kind']	"book"
3	!grammar
4	$['kind']	"book"
= 2
3	!grammar
= 4 lines, 1 refused, 0 blank
"""

# A value of each kind at `v`; more names than are compared by pairs; more open containers than have room at first.
KINDS = """{"v":null}
{"v":true}
{"v":false}
{"v":1.50}
{"v":"b\\u0062c"}
{"v":[7,[8,9]]}
{"v":{"a":7}}

{"s":["abb","aabaab","a",["aab"],{"p":"aab"},"xyz"],"t":"a.b"}
{"i":9,"h":8,"g":7,"f":6,"e":5,"d":4,"c":3,"b":2,"a":1,"deep":[[[[[[[[[[0]]]]]]]]]]}
[1,
"""
KINDS_SCRIPT = """index $.v
indexes
explain $[?$.v==null]
query $[?$.v==null]
explain $[?$.v==true]
query $[?$.v==true]
explain $[?false==$.v]
query $[?false==$.v]
explain $[?$.v<=15e-1]
query $[?$.v<=15e-1]
explain $[?$.v>='bbc']
query $[?$.v>='bbc']
explain $.v[1][*]
query $.v[1][*]
explain $.v.a
query $.v.a

frob
query $.s[?length(@)==3]
query $.s[?count(@.*)==1]
query $[?value(@..p)=='aab']
query $.s[?match(@,'a.b')]
query $.s[?search(@,$.t)]
query $.s[?match(@,'((a{1,2}b){1,2}){1,3}')]
query $.s[?@[?length(@)==length($.t)]]
query $[?@[?@[?@==9]]]
explain $..[?$.v==null && @.a]
query $..['a','p']
explain $..p
query $[?unknown(@)]
index $..v
replace 4 {"v":"zz"}
append {"v":[[3]]}
replace 6 [
explain $[?$.v>='bbc']
query $[?$.v>='bbc']
explain $.v
query $.v
drop $['v']
drop $.v
replace 09 1
check
"""
KINDS_OUTPUT = """indexed 7
$['v']
= 1
guard $['v'] == null
child 1
open 1 of 9
1	$['v']	null
11	!grammar
= 1
guard $['v'] == true
child 1
open 1 of 9
2	$['v']	true
11	!grammar
= 1
guard $['v'] == false
child 1
open 1 of 9
3	$['v']	false
11	!grammar
= 1
guard $['v'] <= 15e-1
child 1
open 1 of 9
4	$['v']	1.50
11	!grammar
= 1
guard $['v'] >= 'bbc'
child 1
open 1 of 9
5	$['v']	"b\\u0062c"
11	!grammar
= 1
seek $['v']
walk [1]
child 1
open 7 of 9
6	$['v'][1][0]	8
6	$['v'][1][1]	9
11	!grammar
= 2
seek $['v']
walk ['a']
open 7 of 9
7	$['v']['a']	7
11	!grammar
= 1
error: command
9	$['s'][0]	"abb"
9	$['s'][5]	"xyz"
11	!grammar
= 2
9	$['s'][3]	["aab"]
9	$['s'][4]	{"p":"aab"}
11	!grammar
= 2
9	$['s']	["abb","aabaab","a",["aab"],{"p":"aab"},"xyz"]
11	!grammar
= 1
9	$['s'][0]	"abb"
11	!grammar
= 1
9	$['s'][0]	"abb"
9	$['s'][1]	"aabaab"
11	!grammar
= 2
9	$['s'][1]	"aabaab"
11	!grammar
= 1
9	$['s'][3]	["aab"]
9	$['s'][4]	{"p":"aab"}
11	!grammar
= 2
6	$['v']	[7,[8,9]]
11	!grammar
= 1
guard $['v'] == null
descend 1
open 1 of 9
7	$['v']['a']	7
9	$['s'][4]['p']	"aab"
10	$['a']	1
11	!grammar
= 3
scan
descend-name ['p']
open 9 of 9
error: query function
error: index path
replaced 4
appended 12
replaced 6
guard $['v'] >= 'bbc'
child 1
open 2 of 9
4	$['v']	"zz"
5	$['v']	"b\\u0062c"
6	!grammar
11	!grammar
= 2
seek $['v']
open 7 of 9
1	$['v']	null
2	$['v']	true
3	$['v']	false
4	$['v']	"zz"
5	$['v']	"b\\u0062c"
6	!grammar
7	$['v']	{"a":7}
11	!grammar
12	$['v']	[[3]]
= 7
dropped
error: index missing
error: command
6	!grammar
11	!grammar
= 12 lines, 2 refused, 1 blank
"""


class Run:
    """How one run ended: status, standard output and error, and what the library told."""

    def __init__(self, collection, script, refused, by_file=False, next_too=False):
        lines, commands = os.path.join(FOLDER, "lines"), os.path.join(FOLDER, "script")
        for name, text in ((lines, collection), (commands, script)):
            with open(name, "w", encoding="utf-8", newline="") as file:
                file.write(text)
        words = [PROGRAM, lines] + (["--script", commands] if by_file else [])
        told, to = os.pipe()
        loaded = {"LD_PRELOAD": LIBRARY, "REFUSE": str(refused), "TOLD": str(to)} if LIBRARY else {}
        if next_too:
            loaded["NEXT"] = "1"
        with open(commands, "rb") as given:
            try:
                ended = subprocess.run(words, stdin=given, capture_output=True, env={**os.environ, **loaded},
                                       pass_fds=[to], timeout=5)
                self.status = ended.returncode
                self.out, self.err = (text.decode(errors="backslashreplace") for text in (ended.stdout, ended.stderr))
            except subprocess.TimeoutExpired:
                self.status, self.out, self.err = "none: it did not end", "", ""
        os.close(to)
        with open(told) as line:
            self.told = line.read()

    def growths(self):
        """How many growths a run had in which none was refused; -1 where the library did not tell."""
        return int(self.told) if self.told.strip().isdigit() else -1


def held_growths(commands):
    """How often the memory of a held command line grows for each command, the most; for one after the last, never."""
    room, growths = 0, []
    for command in commands:
        before = len(growths)
        growths.append(0)
        while room < len(command.encode()):
            room = max(8, 2 * room)
            growths[before] += 1
    return [*growths, 0]


class Checks:
    """How many checks passed, failed and were skipped. The first failures are told at once."""

    skipped = 0
    passed = 0
    failed = 0

    def check(self, name, fault):
        if fault is None:
            self.passed += 1
        else:
            self.failed += 1
            if self.failed <= MOST_TOLD:
                print(f"{name}: NOT AS STATED: {fault}")


def differs(got, stated):
    """Where two texts first differ, in words."""
    got, stated = got.split("\n"), stated.split("\n")
    same = 0
    while same < min(len(got), len(stated)) and got[same] == stated[same]:
        same += 1
    told = [texts[same] if same < len(texts) else "no more" for texts in (got, stated)]
    return f"output line {same + 1} is {told[0]!r} for {told[1]!r}"


class Script:
    """A script over a collection, and how its runs may end."""

    def __init__(self, name, collection, script, by_file):
        self.name, self.collection, self.script, self.by_file = name, collection, script, by_file
        self.commands = script.splitlines()
        self.fronts = [self.written(self.commands[:count]) for count in range(len(self.commands) + 1)]
        self.without = {place: self.written_without(place) for place in range(len(self.commands)) if self.wants_memory(place)}
        self.held = held_growths(self.commands)
        self.begun = {front: count for count, front in reversed(list(enumerate(self.fronts)))}
        self.left_out = {text: place for place, text in self.without.items()}

    def written(self, commands):
        """What the program writes for these commands, with no growth refused."""
        return Run(self.collection, "".join(f"{command}\n" for command in commands), 0, self.by_file).out

    def wants_memory(self, place):
        """Whether the command there may answer that it had no memory."""
        return self.fronts[place + 1][len(self.fronts[place]):] not in WITHOUT_MEMORY

    def written_without(self, place):
        """What is written where the command there answers that it had no memory, and changes nothing."""
        front, others = self.fronts[place], self.commands[:place] + self.commands[place + 1:]
        return front + MEMORY + self.written(others)[len(front):]

    def run(self, refused, next_too=False):
        return Run(self.collection, self.script, refused, self.by_file, next_too)

    def is_whole(self, run):
        """Whether a run ended as one without a refusal."""
        return (run.status, run.out, run.err) == (0, self.fronts[-1], "")

    def whole_fault(self, run, stated):
        """What is wrong with a run without a refusal, or None."""
        for front in self.fronts:
            if not stated.startswith(front):
                return f"the first commands alone: {differs(front, stated)}"
        if run.status != 0 or run.err:
            return f"status {run.status} for 0, said: {run.err!r}"
        return None if run.out == stated else differs(run.out, stated)

    def refused_fault(self, run, loading, before):
        """What is wrong with a run in which a growth was refused, or None; and in front of which command it was."""
        if run.status == 16:
            if run.err != NO_MEMORY:
                return f"status 16, said: {run.err!r}", before
            if run.out not in self.begun:
                return f"status 16, and not the first answers: {differs(run.out, self.fronts[-1])}", before
            place = self.begun[run.out]
            if loading and place:
                return f"status 16 while loading, and {place} commands were answered", before
        elif run.status == 0 and not run.err:
            if run.out not in self.left_out:
                return self.nearest(run.out), before
            place = self.left_out[run.out]
            if loading:
                return f"refused while loading, and answered by the command {self.commands[place]!r}", before
        else:
            return f"status {run.status} for 0 or 16, said: {run.err!r}", before
        if place < before:
            return f"refused in {self.commands[place]!r}, and an earlier growth in a command after it", before
        return None, place

    def nearest(self, out):
        """How an output differs from the one that has the same command left out, or none."""
        if out == self.fronts[-1]:
            return "a growth was refused and not asked for again, and every command was answered as without that"
        if MEMORY not in out:
            return f"a growth was refused, and no command answered that: {differs(out, self.fronts[-1])}"
        front = out[:out.index(MEMORY)]
        for place, text in self.without.items():
            if self.fronts[place] == front:
                return f"{self.commands[place]!r} refused: {differs(out, text)}"
        return f"refused where no command begins: {differs(out, self.fronts[-1])}"

    def each_refused(self, checks, stated):
        """Refuses each growth in turn, until a run meets no refusal, and returns how many were refused."""
        run = self.run(0)
        growths = run.growths()
        unheld = [0] * len(self.held)
        loading = Run(self.collection, "", 0, self.by_file).growths()
        number, place, within, again = 1, 0, 0, 0
        while time.monotonic() < END:
            run = self.run(number)
            if not run.told.startswith("refused\n"):
                break
            name = f"{self.name}, growth {number} refused"
            if run.told == ASKED_AGAIN and self.is_whole(run):
                checks.check(name, None)
                again += 1
                run, name = self.run(number, next_too=True), f"{name}, and again"
            fault, place = self.refused_fault(run, number <= loading, place)
            within += run.status == 0
            if run.status == 16 and number > loading:
                unheld[place] += 1
                if unheld[place] > self.held[place]:
                    fault = f"status 16 in front of command {place + 1} once more than the {self.held[place]} growths of its line"
            checks.check(name, fault)
            number += 1
        refused = number - 1
        fault = self.whole_fault(run, stated)
        if not loading < refused == growths:
            fault = f"{refused} growths were refused in time, {growths} counted, {loading} of them while loading"
        checks.check(f"{self.name}, no growth refused", fault)
        print(f"{self.name}: {refused} growths refused, {loading} of them before the first command, {within} told by a command;"
              f" {again} asked for again at once, and refused again")


def command_growths(line, lines, made, command, stated):
    """How many growths a command has on so many lines that are alike, with what was made before it."""
    runs = [Run(f"{line}\n" * lines, made + script, 0) for script in ("", command)]
    for run, out in zip(runs, stated):
        if run.status != 0 or run.out != out:
            return None
    return runs[1].growths() - runs[0].growths()


def edit_growths(lines, made, told):
    """How many growths `replace 1 2` has on that many lines `1`, after commands that tell this."""
    return command_growths("1", lines, made, "replace 1 2\n", [told, told + "replaced 1\n"])


def pattern_growths(lines, condition):
    """How many growths a query has by which each text of so many lines is selected."""
    answer = "".join(f'{line + 1}\t$[0]\t"abab1"\n' for line in range(lines)) + f"= {lines}\n"
    return command_growths('["abab1"]', lines, "", f"query $[?{condition}]\n", ["", answer])


GROWING = [("an edit", lambda lines: edit_growths(lines, "", "")),
           ("an edit with an index", lambda lines: edit_growths(lines, "index $\n", f"indexed {lines}\n")),
           ("a pattern", lambda lines: pattern_growths(lines, r"match(@,'((a*)*b?)*\\p{Nd}')")),
           ("a search", lambda lines: pattern_growths(lines, "search(@,'(a|b){3,30}[0-9]+')"))]


def check_growths(checks):
    """The growths of an edit or a query do not come with the number of lines: a text that runs through the states of a pattern has
    none."""
    for name, growths in GROWING:
        one, many = growths(1), growths(200)
        fault = None
        if one is None or many is None:
            fault = "it was not answered as stated"
        elif not 0 < many <= one + 20:
            fault = f"{many} growths, and {one} on one line"
        else:
            print(f"{name} on 200 lines: {many} growths, and {one} on one line")
        checks.check(f"{name} on 200 lines", fault)


def main():
    checks = Checks()
    scripts = [(Script("books", BOOKS, BOOKS_SCRIPT, False), BOOKS_OUTPUT),
               (Script("kinds", KINDS, KINDS_SCRIPT, True), KINDS_OUTPUT)]
    if not LIBRARY:
        print("skipped: every refusal and the growths of single commands, as there is no `cc` with its headers to build what refuses and counts them")
        checks.skipped += len(scripts) + len(GROWING)
    for script, stated in scripts:
        if LIBRARY:
            script.each_refused(checks, stated)
        else:
            checks.check(f"{script.name}, no growth refused", script.whole_fault(script.run(0), stated))
    if LIBRARY:
        check_growths(checks)
    print(f"jpq: {checks.passed} passed, {checks.failed} failed, {checks.skipped} skipped")
    return 1 if checks.failed else 0


sys.exit(main())
