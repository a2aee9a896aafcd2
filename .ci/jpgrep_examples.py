"""Runs jpgrep on each example of `jpgrep.examples` in a fresh folder, and tries what data cannot say: devices, pipes, memory, and
jpq on the same collections.

    jpgrep_examples.py PROGRAM JPQ

How an example is written stands at the head of the examples. Without an executable JPQ the comparison with it is skipped.
"""
import array
import fcntl
import json
import os
import pathlib
import pty
import random
import re
import shlex
import subprocess
import sys
import tempfile
import termios
import threading
import time

from jpgrep_context import context, has_grep
from jpgrep_lists import model_of_text, random_list
from jpgrep_paths import paths
from jpgrep_pieces import BYTE_ORDER_MARK, answers_of, random_stream
from jpgrep_tables import table
from jpgrep_tally import tally

PROGRAM, JPQ = (os.path.abspath(word) for word in sys.argv[1:])
EXAMPLES = pathlib.Path(__file__).with_name("jpgrep.examples")
SECONDS = 60
counts = [0, 0]  # failed and passed


def check(name, got, stated):
    """Compares what a run gave with what is stated of it."""
    counts[got == stated] += 1
    if got != stated:
        print(f"jpgrep, {name}: NOT AS STATED\n  got    {str(got)[:600]}\n  stated {str(stated)[:600]}")


def ended(words, room, text=b"", out=subprocess.PIPE):
    """What a run with these words writes and says, and its status. The text is its standard input."""
    run = subprocess.run([PROGRAM, *words], cwd=room, input=text, stdout=out, stderr=subprocess.PIPE, timeout=SECONDS)
    return run.stdout, run.stderr, run.returncode


def line_of(text):
    """The bytes of a line and, unless it is left out, its line feed. Some stand in hexadecimal between guillemets, where `*`
    tells how many times they come."""
    parts = re.split("«([0-9A-F ]+)(?:[*]([0-9]+))?»", text.removesuffix("«no line feed»"))
    whole = parts[0].encode()
    for spelled, times, behind in zip(parts[1::3], parts[2::3], parts[3::3]):
        whole += bytes.fromhex(spelled) * int(times or 1) + behind.encode()
    return whole if text.endswith("«no line feed»") else whole + b"\n"


class Example:
    """An example; `texts` are its standard input, output and error, by the signs of their lines."""

    def __init__(self, name):
        self.name, self.words, self.status = name, None, 0
        self.texts, self.first_alone = {"|": b"", "<": b"", "!": b""}, set()

    def add(self, line):
        if line.startswith("$ jpgrep"):
            self.words = shlex.split(os.fsdecode(line_of(line)))[2:]
        elif line.startswith("status "):
            self.status = int(line[7:])
        elif line[1:4] == ".. ":
            self.first_alone.add(line[0])
            self.texts[line[0]] = line_of(line[4:])
        else:
            self.texts[line[0]] += line_of(line[2:])

    def run(self, files):
        with tempfile.TemporaryDirectory() as room:
            for name, text in files.items():
                path = pathlib.Path(room, name)
                path.mkdir() if text is None else path.write_bytes(text)
            got = list(ended(self.words, room, self.texts["|"]))
        for place, sign in enumerate("<!"):
            if sign in self.first_alone:
                got[place] = got[place].partition(b"\n")[0] + b"\n"
        check(self.name, got, [self.texts["<"], self.texts["!"], self.status])


def read_examples():
    """The files by name, where a folder is None, and the examples."""
    files, examples, name = {}, [], None
    for line in EXAMPLES.read_text("utf-8").split("\n"):
        if line.startswith("== "):
            examples.append(Example(line[3:]))
        elif line == "" or line[0] == "#":
            continue
        elif examples:
            examples[-1].add(line)
        elif line[0] == "|":
            files[name] += line_of(line[2:])
        else:
            kind, name = line.split(" ", 1)
            files[name] = {"file": b"", "folder": None}[kind]
    return files, examples


def devices(room):
    pathlib.Path(room, "one").write_bytes(b'{"a":1}\n')
    pathlib.Path(room, "many").write_bytes(b'{"a":1}\n' * 100_000)
    for words in (["$.a", "one"], ["$.a", "many"], ["-c", "$.a", "one"], ["-C1", "$.a", "one"], ["-C1", "$.a", "many"]):
        with open("/dev/full", "wb") as full:
            check(f"{words} to a full device", ended(words, room, out=full)[1:], (b"jpgrep: cannot write\n", 2))
    for words in (["--help"], ["--version"]):
        with open("/dev/full", "wb") as full:
            check(f"{words} to a full device", ended(words, room, out=full)[1:], (b"jpgrep: cannot write\n", 2))
    for words, stated in (([], b""), (["one", "-", "one"], b'one:{"a":1}\n' * 2)):
        run = subprocess.run(["bash", "-c", '"$0" "$@" <&-', PROGRAM, "$.a", *words], cwd=room, capture_output=True, timeout=SECONDS)
        check(f"a closed standard input {words}", (run.stdout, run.stderr, run.returncode), (stated, b"jpgrep: (standard input): cannot read\n", 2))
    for words in (["$.a"], ["-A3", "$.a"]):
        endless = subprocess.Popen(["yes", '{"a":1}'], stdout=subprocess.PIPE)
        try:
            run = subprocess.run(["bash", "-c", '"$0" "$@" | head -1', PROGRAM, *words], stdin=endless.stdout, capture_output=True, timeout=SECONDS)
        finally:
            endless.kill()
        check(f"endless lines, {words} and head -1", (run.stdout, run.stderr), (b'{"a":1}\n', b""))
    for words, stated in ((["-m1", "$.a"], b'{"a":1}\n'), (["-q", "$.a"], b""), (["-l", "$.a"], b"(standard input)\n"), (["-m0", "$.a"], b""),
                          (["-m1", "-n", "-A2", "$.a"], b'1:{"a":1}\n2-{"a":1}\n3-{"a":1}\n'), (["-m0", "-A2", "$.a"], b"")):
        endless = subprocess.Popen(["yes", '{"a":1}'], stdout=subprocess.PIPE)
        try:
            run = subprocess.run([PROGRAM, *words], stdin=endless.stdout, capture_output=True, timeout=SECONDS)
        finally:
            endless.kill()
        check(f"endless lines and {words}", (run.stdout, run.stderr, run.returncode), (stated, b"", 1 if "-m0" in words else 0))
    # Lines that end about the ends of the pieces of 65,536 bytes that are read at once, and lines that are longer.
    lines = [b'"' + b"x" * (length - 2) + b'"\n' for length in (65_534, 65_535, 65_536, 3, 65_530, 200_000, 2, 131_072, 9)]
    check("lines about the ends of pieces", ended(["-n", "$"], room, b"".join(lines)),
          (b"".join(b"%d:%s" % numbered for numbered in enumerate(lines, 1)), b"", 0))


def own_output(room):
    """A file that the rows are added to is not read, since it would have no end, unless nothing or one row is written, the header
    being a row."""
    lines = b'{"a":1}\n{"a":2}\n'
    path = pathlib.Path(room, "own")
    cases = [(["$.a", "own"], "", b"own", b""), (["$.a"], "< own", b"(standard input)", b""), (["-c", "$.a", "own"], "", None, b"2\n"),
             (["-m1", "$.a", "own"], "", None, b'{"a":1}\n'), (["-m1", "-B1", "-w", "@.a == 2", "own"], "", None, lines),
             (["-m1", "-A1", "$.a", "own"], "", b"own", b""), (["--csv", "--header", "-m1", "$.a", "own"], "", b"own", b"$.a\n")]
    for words, given, refused, added in cases:
        path.write_bytes(lines)
        run = subprocess.run(["bash", "-c", f'"$0" "$@" {given} >> own', PROGRAM, *words], cwd=room, stdin=subprocess.DEVNULL,
                             stderr=subprocess.PIPE, timeout=SECONDS)
        said = b"jpgrep: %s: input file is also the output\n" % refused if refused else b""
        check(f"{words} {given} added to its own file", (run.stderr, run.returncode, path.read_bytes()), (said, 2 if refused else 0, lines + added))


def own_messages(room):
    """A file that the messages are added to comes to its end, since each of them is a refused line of it, and ten are told."""
    path = pathlib.Path(room, "own.log")
    path.write_bytes(b'{"a":1}\n' + b"{\n" * 40_000)
    run = subprocess.run(["bash", "-c", '"$0" "$" own.log 2>> own.log', PROGRAM], cwd=room, stdout=subprocess.PIPE, timeout=SECONDS)
    lines = path.read_bytes().splitlines()[40_001:]
    check("messages added to their own file", (run.stdout, run.returncode), (b'{"a":1}\n', 2))
    check("the messages that were added", lines[:10], [b"jpgrep: own.log:%d: grammar" % number for number in range(2, 12)])
    last = re.fullmatch(rb"jpgrep: own.log: (\d+) more lines are refused; --refused lists them", lines[-1])
    check("how many more were refused, and no other message", (len(lines), bool(last) and 39_990 <= int(last[1]) <= 40_000), (11, True))


def messages_among_rows(room):
    """A message stands after the rows of the lines before its own and before those of the lines after it, in whichever read they came."""
    lines = [b"1", b"x", b"2", b"{", *(b"%d" % number for number in range(5, 20_000)), b"[", b"3"]
    row, around, message = b"%d:%s\n", b"%d-%s\n", b"jpgrep: (standard input):%d: grammar\n"
    for words in ["-n", "$"], ["-n", "-o", "$"], ["-n", "-C1", "$"]:
        told = b""
        for number, line in enumerate(lines, 1):
            if line.isdigit():
                told += row % (number, line)
            else:
                told += (around % (number, line) if "-C1" in words else b"") + message % number
        run = subprocess.run([PROGRAM, *words], cwd=room, input=b"\n".join(lines), stdout=subprocess.PIPE, stderr=subprocess.STDOUT, timeout=SECONDS)
        check(f"{words}: messages among rows", run.stdout, told)


def failed_reads(room):
    """A read that fails after eleven refused lines, and within a text, of which nothing is told: that of a terminal whose other side
    was closed."""
    told = b"".join(b"jpgrep: (standard input):%d: grammar\n" % number for number in range(1, 11))
    told += b"jpgrep: (standard input): 1 more line is refused; --refused lists them\n"
    cases = ((["-c", "$"], b"}\n" * 11, b"", told), (["--json", "$"], b'{"a":1}12 [2,3', b'{"a":1}\n12\n', b""),
             (["--elements", "$"], b'{"a":1}12 [2,3', b'{"a":1}\n12\n2\n', b""))
    for words, text, rows, told in cases:
        master, terminal = pty.openpty()
        os.write(terminal, text)
        os.close(terminal)
        run = subprocess.run([PROGRAM, *words], cwd=room, stdin=master, capture_output=True, timeout=SECONDS)
        os.close(master)
        check(f"{words}, a read that fails", (run.stdout, run.stderr, run.returncode), (rows, told + b"jpgrep: (standard input): cannot read\n", 2))


def terminal_colours(room):
    """At a terminal rows have colours, unless the environment asks for none."""
    cases = (({"TERM": "xterm"}, True), ({"TERM": "xterm", "NO_COLOR": ""}, True), ({"TERM": "xterm", "NO_COLOR": "1"}, False), ({"TERM": "dumb"}, False), ({}, False))
    for environment, coloured in cases:
        master, terminal = pty.openpty()
        subprocess.run([PROGRAM, "--color", "$.a"], cwd=room, input=b'{"a":1}\n', stdout=terminal, env=environment, timeout=SECONDS)
        os.close(terminal)
        check(f"colours at a terminal with {environment}", b"\x1b[" in os.read(master, 4096), coloured)
        os.close(master)


def first_bytes(room):
    """A sequence whose first bytes are none is refused as they come, and so is data of another format, whose mark may come byte by
    byte. A byte order mark in two pieces is none the less one."""
    gzip = b"jpgrep: (standard input): gzip data; unpack it first: zcat | jpgrep ..\n"
    no_sequence = b"jpgrep: (standard input): bytes before first separator\n"
    bytewise = ((["$"], b"\x1f\x8b", gzip), (["--seq", "$"], b"\x1f\x8b", gzip), (["--seq", "$"], b"\x1f\x08", no_sequence),
                (["--seq", "$"], b"  \xef", no_sequence), (["--seq", "$"], b"\xef\xbb\xbe", no_sequence))
    for words, pieces, stated in bytewise:
        with subprocess.Popen([PROGRAM, *words], cwd=room, stdin=subprocess.PIPE, stdout=subprocess.PIPE, stderr=subprocess.PIPE) as run:
            watch = threading.Timer(SECONDS, run.kill)
            watch.start()
            for piece in pieces:
                run.stdin.write(bytes([piece]))
                run.stdin.flush()
                time.sleep(0.05)
            check(f"{words} and the bytes {pieces.hex()} one by one", run.stderr.readline(), stated)
            watch.cancel()
    words = [PROGRAM, "--seq", "$"]
    with subprocess.Popen(words, cwd=room, stdin=subprocess.PIPE, stdout=subprocess.PIPE, stderr=subprocess.PIPE) as run:
        watch = threading.Timer(SECONDS, run.kill)
        watch.start()
        run.stdin.write(b'{"a":1}\n')
        run.stdin.flush()
        check("no sequence, by its first bytes", run.stderr.readline(), b"jpgrep: (standard input): bytes before first separator\n")
        watch.cancel()
    with subprocess.Popen(words, cwd=room, stdin=subprocess.PIPE, stdout=subprocess.PIPE, stderr=subprocess.PIPE) as run:
        for piece in (b"\xef", b"\xbb\xbf \x1e", b'{"a":1}\n'):
            run.stdin.write(piece)
            run.stdin.flush()
            time.sleep(0.05)
        check("a byte order mark in two pieces", run.communicate(timeout=SECONDS), (b'\x1e{"a":1}\n', b""))


def follows(name, words, steps, room):
    """Through a fifo the rows and messages of what ends in a step come before the next step is written. A step is what is
    written, and the row and the message that come for it."""
    fifo = os.path.join(room, "fifo")
    os.mkfifo(fifo)
    run = subprocess.Popen([PROGRAM, *words, "fifo"], cwd=room, stdout=subprocess.PIPE, stderr=subprocess.PIPE, bufsize=0)
    too_long = threading.Timer(20, run.kill)
    too_long.start()
    # Opened for reading too, so that no write fails or waits if the program is gone.
    with open(fifo, "r+b", buffering=0) as lines:
        for number, (text, row, message) in enumerate(steps, 1):
            lines.write(text)
            time.sleep(0.05)
            for pipe, stated in ((run.stdout, row), (run.stderr, message)):
                if stated:
                    check(f"{name}, step {number}", pipe.readline(), stated)
    check(f"the end of {name}", (run.wait(), run.stdout.read(), run.stderr.read()), (2, b"", b""))
    too_long.cancel()
    os.remove(fifo)


LINES = ((b"\xef\xbb", b"", b""), (b'\xbf{"a":1}\r', b"", b""), (b"\n", b'1:{"a":1}\r\n', b""), (b"x\n", b"", b"jpgrep: fifo:2: grammar\n"),
         (b'{"b":1}\n{"a', b"", b""), (b'":2}\n{\n{"a":3', b'4:{"a":2}\n', b"jpgrep: fifo:5: grammar\n"), (b"}\n", b'6:{"a":3}\n', b""))
TEXTS = ((b' \x1e{"a":1}\n', b"", b""), (b"\x1e", b'\x1e1:{"a":1}\n', b""), (b"12\x1e", b"", b"jpgrep: fifo:2: truncated\n"),
         (b'{"a":2}', b"", b""), (b"\x1e", b'\x1e3:{"a":2}\n', b""))


# A text in brackets or quotes ends with its last byte, a number or word with the byte after it, an element with its comma or with the
# bracket of its array.
JSON = ((b"\xef\xbb", b"", b""), (b'\xbf{"a":[', b"", b""), (b"\n1]}", b'1:{"a":[1]}\n', b""), (b'"x', b"", b""), (b'"', b'2:"x"\n', b""),
        (b"12", b"", b""), (b" ", b"3:12\n", b""), (b"true[", b"4:true\n", b""), (b"]1]", b"5:[]\n", b""),
        (b"\n", b"", b"jpgrep: fifo:6: grammar, from line 2\n"))
ELEMENTS = ((b'[{"a":1}', b"", b""), (b",", b'1:{"a":1}\n', b""), (b"[2\n]", b"", b""), (b" ", b"", b""), (b"]", b"2:[2]\n", b""), (b"[3 4", b"", b""),
            (b",", b"", b"jpgrep: fifo:3: grammar, from line 2\n"), (b'5}{"b":1}', b'5:{"b":1}\n', b"jpgrep: fifo:4: grammar, from line 2\n"))


# Lines around selected lines come as soon as it is known that they are shown, and messages as ever.
AROUND = ((b'{"b":1}\n', b"", b""), (b'{"a":2}', b"", b""), (b"\n", b'1-{"b":1}\n', b""), (b"", b'2:{"a":2}\n', b""),
          (b"x\n", b"3-x\n", b"jpgrep: fifo:3: grammar\n"), (b'\n{"b":5}\n', b"", b""), (b'{"a":6}\n', b"--\n", b""), (b"", b'5-{"b":5}\n', b""),
          (b"", b'6:{"a":6}\n', b""), (b"{", b"", b""), (b"}\n", b"7-{}\n", b""))


def in_two_reads(words, text, cut, room):
    """What a run writes and says of a text whose first bytes it reads before the others come."""
    with subprocess.Popen([PROGRAM, *words], cwd=room, stdin=subprocess.PIPE, stdout=subprocess.PIPE, stderr=subprocess.PIPE, bufsize=0) as run:
        run.stdin.write(text[:cut])
        unread = array.array("i", [cut])
        while unread[0] and run.poll() is None:
            time.sleep(0.0005)
            fcntl.ioctl(run.stdin, termios.FIONREAD, unread)
        return run.communicate(text[cut:], timeout=SECONDS)


def each_cut(room):
    """A stream is read in two parts, whatever its first part is."""
    text = b'\xef\xbb\xbf {"a":"]\\"}",\r\n"b":[1,{}]}[",\\\\",\n[2]]"x"12 tru{"a" 3}[4'
    cases = (("--json", b'1:{"a":"]\\"}","b":[1,{}]}\n2:[",\\\\",[2]]\n3:"x"\n4:12\n', ((5, b"grammar"), (6, b"grammar"), (7, b"truncated"))),
             ("--elements", b'1:{"a":"]\\"}","b":[1,{}]}\n2:",\\\\"\n3:[2]\n4:"x"\n5:12\n', ((6, b"grammar"), (7, b"grammar"), (8, b"truncated"))))
    for word, rows, refused in cases:
        told = b"".join(b"jpgrep: (standard input):%d: %s, from line 3\n" % fault for fault in refused)
        for cut in range(len(text) + 1):
            check(f"{word}, cut after {cut} bytes", in_two_reads([word, "-n", "$"], text, cut, room), (rows, told))


def long_pieces(room):
    """Texts and elements that end about the ends of the 65,536 bytes that are read at once, and longer ones."""
    texts = [b'["' + b"x" * (length - 4) + b'"]' for length in (65_535, 65_536, 65_537, 4, 65_530, 200_000, 4, 131_072, 9)]
    rows = b"".join(b"%d:%s\n" % numbered for numbered in enumerate(texts, 1))
    check("texts about the ends of reads", ended(["--json", "-n", "$"], room, b"".join(texts)), (rows, b"", 0))
    check("elements about the ends of reads", ended(["--elements", "-n", "$"], room, b"[" + b",\n".join(texts) + b"]"), (rows, b"", 0))


def memory():
    """The peak of the process is asked before its standard input ends."""
    lines = b'{"level":"info","ms":12,"path":["a","b"]}\n' * 25_000  # somewhat more than 1 MB
    count = ("-c", "$[?@ == 12]")
    for words, front, text in (count, b"", lines), (("--json", *count), b"", lines), (("--elements", *count), b"[0", lines.replace(b"{", b",{")), \
            (("-C", "1000", "$.absent"), b"", lines):
        run = subprocess.Popen([PROGRAM, "-s", *words], stdin=subprocess.PIPE, stdout=subprocess.PIPE)
        run.stdin.write(front)
        for _ in range(200):
            run.stdin.write(text)
        kilobytes = int(re.search(r"VmHWM:\s*(\d+) kB", pathlib.Path(f"/proc/{run.pid}/status").read_text("ascii"))[1])
        stated = b"5000000\n" if "-c" in words else b""
        check(f"{words} of 200 MB", run.communicate(b"]" if front else b"", timeout=SECONDS)[0], stated)
        check(f"{words} 200 MB in less than 20 MB", kilobytes if kilobytes >= 20_000 else "less", "less")


def random_value(dice, depth):
    if depth == 0 or dice.random() < 0.4:
        return dice.choice((0, 1, -1, 2.5, "a", "b", "é", "x\ty", "", None, True, False))
    if dice.random() < 0.4:
        return [random_value(dice, depth - 1) for _ in range(dice.randrange(4))]
    return {name: random_value(dice, depth - 1) for name in dice.sample(("a", "b", "c", "d e", "'"), dice.randrange(4))}


SEGMENTS = (".a", ".b", "['d e']", "[\"'\"]", "[*]", "..a", "..*", "..[0]", "[0]", "[-1]", "[0,1]", "[1:]", "[::-1]", "['a','b']", "[?@.a]",
            "[?@ == 1]", "[?@.a == $.a]", "[?@ > 0 || @ == 'a']", "[?length(@) == 1]", "[?count(@.*) > 1]", "[?!@.b]")


def beside_jpq(room):
    """Row by row `-onp` says what the command `query` of jpq says, with a colon in the place of the first tab."""
    dice = random.Random(9535)
    for number in range(300):
        lines = [json.dumps(random_value(dice, 4), ensure_ascii=dice.random() < 0.5) for _ in range(dice.randrange(1, 7))]
        lines += dice.sample(("", " ", "}", "[1,]", '{"a":1,"a":2}'), dice.randrange(3))
        dice.shuffle(lines)
        pathlib.Path(room, "lines").write_bytes("".join(line + "\n" for line in lines).encode())
        query = "$" + "".join(dice.choice(SEGMENTS) for _ in range(dice.choice((0, 1, 1, 1, 2, 2, 3))))
        answer = subprocess.run([JPQ, "lines", "-c", "query " + query], cwd=room, stdout=subprocess.PIPE, check=True, timeout=SECONDS)
        rows = [row.split(b"\t", 1) for row in answer.stdout.splitlines() if not row.startswith(b"= ")]
        stated = b"".join(b"%s:%s\n" % (line, rest) for line, rest in rows if rest[:1] != b"!")
        refused = b"".join(b"jpgrep: lines:%s: %s\n" % (line, rest[1:]) for line, rest in rows if rest[:1] == b"!")
        rows, messages, status = ended(["-onp", query, "lines"], room)
        # A note that the line itself was probably meant is a matter of its own examples.
        messages = b"".join(line for line in messages.splitlines(True) if not line.startswith(b"jpgrep: note: "))
        check(f"collection {number} with {query}", (rows, messages, status), (stated, refused, 2 if refused else 0 if stated else 1))


def canonical(value):
    return json.dumps(value, sort_keys=True, separators=(",", ":"), ensure_ascii=False)


def each_line_once(room):
    """Each line that is not blank is printed by the query `$` or by `--refused`, as it is, and never by both."""
    dice = random.Random(8259)
    pieces = (b"", b" ", b"\t \r", b"{", b"[1,]", b'{"a":1,"a":2}', b'"\xff"', b'{"a":1}', b' "x"\r', b"1e5", b"\x0c", b"[" * 513)
    for number in range(60):
        lines = dice.choices(pieces, k=dice.randrange(40))
        pathlib.Path(room, "lines").write_bytes(b"\n".join(lines))
        rows = b"".join(ended([*words, "-n", "lines"], room)[0] for words in (["-s", "$"], ["--refused"])).split(b"\n")[:-1]
        stated = [b"%d:%s" % (place, line) for place, line in enumerate(lines, 1) if line.strip(b" \t\r")]
        check(f"lines {number} by `$` and by --refused", sorted(rows, key=lambda row: int(row.partition(b":")[0])), stated)


def pieces_once(room):
    """Each text or element is answered with its number: by its row, or by a message and in the rows of --refused."""
    dice = random.Random(8259)
    for number in range(200):
        stream = (BYTE_ORDER_MARK if dice.random() < 0.1 else b"") + random_stream(dice)
        pathlib.Path(room, "stream").write_bytes(stream)
        for word in ("--json", "--elements"):
            rows, told, refused = answers_of(stream, b"stream", word == "--elements")
            got = ended([word, "-n", "$", "stream"], room)
            check(f"stream {number} with {word}", got[0], rows)
            check(f"messages on stream {number} with {word}", got[1].splitlines()[:10], told.splitlines()[:10])
            check(f"status of stream {number} with {word}", got[2], 2 if told else 0 if rows else 1)
            check(f"stream {number} with {word} --refused", ended([word, "--refused", "-n", "-p", "stream"], room)[0], refused)


def read_back(room):
    """Tables lead back to the values of their cells. Canonical form is what Python writes of a value with its names in order."""
    dice = random.Random(4180)
    for number in range(int(os.environ.get("JPGREP_TABLES", "300"))):
        table(number, dice, ended, check, room)
    for number in range(int(os.environ.get("JPGREP_TALLIES", "300"))):
        tally(number, dice, ended, check, room)
    for number in range(int(os.environ.get("JPGREP_PATHS", "100"))):
        paths(number, dice, ended, check, room)
    for number in range(100):
        lines = [random_value(dice, 3) for _ in range(dice.randrange(1, 6))]
        pathlib.Path(room, "lines").write_text("".join(json.dumps(line, ensure_ascii=dice.random() < 0.5) + "\n" for line in lines), "utf-8")
        check(f"values {number} in canonical form", ended(["-j", "$", "lines"], room)[0].decode(), "".join(canonical(line) + "\n" for line in lines))


def in_lists(room):
    """`--in` and `--not-in` of random lists, beside a model: as many as LISTS says."""
    dice = random.Random(9535)
    for number in range(int(os.environ.get("JPGREP_LISTS", "300"))):
        listed, asked = random_list(dice)
        pathlib.Path(room, "list").write_text("\n".join(listed) + dice.choice(("", "\n")), "utf-8")
        text = "".join(line + "\n" for line, _ in asked).encode()
        values = {model_of_text(value) for value in listed if value}
        are_in = [value is not None and model_of_text(value) in values for _, value in asked]
        for words, wanted in ((["--in", "@.k"], True), (["--not-in", "$.k"], False)):
            stated = "".join(f"{at + 1}:{asked[at][0]}\n" for at in range(len(asked)) if are_in[at] == wanted)
            check(f"list {number} by {words[0]}", ended(["-n", *words, "list", "-"], room, text)[:2], (stated.encode(), b""))


def beside_grep(room):
    """Lines around selected lines, beside those of grep: as many runs as CONTEXTS says."""
    dice = random.Random(1988)
    for number in range(int(os.environ.get("JPGREP_CONTEXTS", "2000"))):
        context(number, dice, ended, check, room)


def main():
    skipped = 0
    files, examples = read_examples()
    for example in examples:
        example.run(files)
    with tempfile.TemporaryDirectory() as room:
        devices(room)
        messages_among_rows(room)
        own_output(room)
        own_messages(room)
        failed_reads(room)
        terminal_colours(room)
        first_bytes(room)
        follows("lines of a fifo", ["-n", "$.a"], LINES, room)
        follows("texts of a fifo", ["-n", "--seq", "$.a"], TEXTS, room)
        follows("JSON texts of a fifo", ["-n", "--json", "$"], JSON, room)
        follows("lines around those of a fifo", ["-n", "-C1", "$.a"], AROUND, room)
        follows("elements of a fifo", ["-n", "--elements", "$"], ELEMENTS, room)
        each_cut(room)
        long_pieces(room)
        memory()
        each_line_once(room)
        pieces_once(room)
        read_back(room)
        in_lists(room)
        if has_grep():
            beside_grep(room)
        else:
            print("skipped: the comparison with grep, as it is not GNU grep 3.5 or later")
            skipped += 1
        if os.access(JPQ, os.X_OK):
            beside_jpq(room)
        else:
            print(f"skipped: the comparison with jpq, as there is none at {JPQ}")
            skipped += 1
    print(f"jpgrep: {counts[1]} passed, {counts[0]} failed, {skipped} skipped")
    return 1 if counts[0] else 0


sys.exit(main())
