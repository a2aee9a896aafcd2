#!/usr/bin/python3
"""Runs a script of jpq over blocks of files on a Dask cluster, or jpgrep over blocks of one file, and writes what one run
over all of them would write.

    dask-scheduler --scheduler-file cluster.json &                  # somewhere
    dask-worker --scheduler-file cluster.json --nthreads 1 &        # one for each processor, on each machine
    shards_dask.py cluster.json SCRIPT FILE..
    shards_dask.py cluster.json --jpgrep FILE [OPTION].. [QUERY]

The scheduler's address will do instead of cluster.json. The files are taken in their order, as one; each but the last ends
with a line feed (with --seq each begins with the byte 1E). Every worker has to be able to open them by the same name, and to
find jpq or jpgrep on its path. A file that ends in .gz is one block. The script may have all eight commands.

jpgrep may have the options that ask each line by itself: -e, -w, --each, -v, -o, -p, -c, -r, -j, -n, -s, -h, --csv and --tsv
with --header and --names, and --refused, in their long forms too. The options of this program stand before --jpgrep.

A block is cut at line feeds alone (with --seq before 1E), and a task pipes it to the program on a worker. The answers stay on
the workers. At first only the number of texts of each block and the ends of its answers come here; then, command by command
and block by block, the rows, with the number of texts before the block added to theirs. If a worker is lost, Dask runs its
blocks again on the others; if all are, it waits for one to come. With edits in the script each block is read twice, as its
texts are counted first. jpgrep reads each block twice too: a blank line stands for each line before it, so that its rows and
messages have the right numbers.

Status of jpq: 0: what was written is what one run would write. 2: the arguments or the files are wrong. 1: a block was not
answered, or ran out of memory for a command (`error: memory`); then nothing was written, unless a worker was lost late. 15:
the answers cannot be written; if `head` has read enough it is 141, and nothing is said. One thing differs from one run: the
limit of 4 GiB is that of a block.

Status of jpgrep: as that of one run, which is 2 if it is 2 for a block, else 0 if it is 0 for a block, else 1. 3: a block was
not answered; then nothing was written, unless a worker was lost late.
"""

import argparse
import collections
import contextlib
import getopt
import gzip
import itertools
import logging
import os
import re
import subprocess
import sys
import tempfile

from dask.distributed import Client

MARK, SEPARATOR = b"\xef\xbb\xbf", b"\x1e"
# The line that ends an answer. No row begins so, and no line within a value of a sequence.
ENDS = re.compile(rb"^(?:= |error: |open |indexed |dropped|appended |replaced ).*\n", re.M)
NUMBER = re.compile(rb"[0-9]+")
ROW = re.compile(rb"^[0-9]+", re.M)
SEQUENCE_ROW = re.compile(rb"^\x1e([0-9]+)", re.M)
REPLACE = re.compile(rb"replace ([1-9][0-9]{0,9}) (.*)", re.S)

# A block is the bytes of a file from `start` to `end`, or all that a packed file holds where `end` is None. `is_first` says
# that there is no text before it, `is_last` that there is none after it.
Block = collections.namedtuple("Block", "path start end is_first is_last is_seq")
Answer = collections.namedtuple("Answer", "rows end")
# What jpgrep answers of a block: its exit status, its rows, and its messages.
Found = collections.namedtuple("Found", "status rows said")

# The options that jpgrep may have over blocks. An option with a value is followed by a colon or `=`, as getopt wants it.
SHORT = "e:w:vopcrjnsh"
LONG = """query= where= each= invert-match refused only-matching path count raw canonical tsv csv header names=
    line-number no-messages no-filename""".split()
VALUED = {"-e": "--query", "-w": "--where", "--query": "--query", "--where": "--where", "--each": "--each"}

# The messages of jpgrep on standard input: on a refused line, on how many more there are, and on a text over several lines. A
# note stands at the end where no line was selected.
START = b"jpgrep: (standard input):"
REFUSED = re.compile(rb"[0-9]+: [a-z0-9]+\n")
MORE = re.compile(rb" ([0-9]+) more lines? (?:is|are) refused; ")
GOES_ON = b" a JSON text goes on"
NOTE = re.compile(rb"^jpgrep: note: ", re.M)


class Unfit(Exception):
    """The files cannot be run as one."""


class Unwritten(Exception):
    """The answers cannot be written."""


# What runs here, before.


def cut_behind(file, at, length, is_seq):
    """The first place from `at` on where a block may end."""
    file.seek(at if is_seq else at - 1)
    while piece := file.read(1 << 16):
        found = piece.find(SEPARATOR if is_seq else b"\n")
        if found >= 0:
            return file.tell() - len(piece) + found + (not is_seq)
    return length


def spans_of(path, size, is_seq, unpacks):
    """The blocks of a file, as places where they start and end; none of a file that is empty."""
    if not os.path.isfile(path):
        raise Unfit(f"no file: {path}")
    is_packed, start = unpacks and path.endswith(".gz"), 0
    with (gzip.open if is_packed else open)(path, "rb") as file:
        if not file.read(1):
            return
        if is_packed:
            yield 0, None
            return
        length = os.path.getsize(path)
        while start < length:
            end = cut_behind(file, start + size, length, is_seq) if start + size < length else length
            yield start, end
            start = end


def blocks_of(paths, size, is_seq=False, unpacks=True):
    spans = [(path, *span) for path in paths for span in spans_of(path, size, is_seq, unpacks)] or [(os.devnull, 0, 0)]
    last = len(spans) - 1
    blocks = [Block(*span, number == 0, number == last, is_seq) for number, span in enumerate(spans)]
    for block in blocks:
        with (gzip.open if block.end is None else open)(block.path, "rb") as file:
            if is_seq and not block.is_first and block.start == 0 and file.read(1) != SEPARATOR:
                raise Unfit(f"no 1E at the front of {block.path}")
            if not is_seq and not block.is_last and block.end is not None:
                file.seek(block.end - 1)
                if file.read(1) != b"\n":
                    raise Unfit(f"no line feed at the end of {block.path}")
    return blocks


# What runs on the workers.


def pieces_of(block):
    with (gzip.open if block.end is None else open)(block.path, "rb") as file:
        file.seek(block.start)
        left = float("inf") if block.end is None else block.end - block.start
        while left > 0 and (piece := file.read(int(min(left, 1 << 20)))):
            left -= len(piece)
            yield piece


def feed(block, pipe):
    """Writes a block to jpq. jpq drops one mark in front, so a block that is not the first gets one to be dropped: one that it
    begins with stays, as in one run. Of a sequence no block but the first can begin with one."""
    last = b"\n"
    try:
        if not block.is_first and not block.is_seq:
            pipe.write(MARK)
        for piece in pieces_of(block):
            last = piece[-1:]
            pipe.write(piece)
        pipe.close()
    except BrokenPipeError:
        return  # its status says more
    if not block.is_seq and not block.is_last and last != b"\n":
        raise RuntimeError(f"no line feed at the end of {block.path}")


def run(block, commands, program):
    """What jpq answers: the bytes of all answers."""
    with tempfile.NamedTemporaryFile() as script, tempfile.TemporaryFile() as out, tempfile.TemporaryFile() as said:
        script.write(b"".join(command + b"\n" for command in commands))
        script.flush()
        words = [program, "-", "--script", script.name, *(["--seq"] if block.is_seq else [])]
        process = subprocess.Popen(words, stdin=subprocess.PIPE, stdout=out, stderr=said)
        try:
            feed(block, process.stdin)
        except BaseException:
            process.kill()
            raise
        finally:
            status = process.wait()
        if status:
            said.seek(0)
            message = said.read().decode(errors="replace").strip()
            raise RuntimeError(f"{block.path} from byte {block.start}: status {status}: {message}")
        out.seek(0)
        return out.read()


def answer(block, commands, program):
    """How many texts a block has, and the Answer to each command, None to an empty one."""
    text, place, answers = run(block, [b"check", *commands], program), 0, []
    for command in [b"check", *commands]:
        if is_empty(command):
            answers.append(None)
            continue
        end = ENDS.search(text, place)
        if end[0] == b"error: memory\n":
            raise MemoryError(f"{block.path} from byte {block.start}: no memory for {command[:80].decode(errors='replace')}")
        answers.append(Answer(text[place : end.start()], end[0]))
        place = end.end()
    return int(NUMBER.search(answers[0].end)[0]), answers[1:]


def ends_of(answered):
    """How many texts the block has, the end of each answer, and whether it has rows."""
    count, answers = answered
    return count, [each and each.end for each in answers], [each and each.rows != b"" for each in answers]


def rows_of(answered, number, before, is_seq):
    """The rows of one command, with the number of texts before the block added to theirs."""
    rows = answered[1][number].rows
    if before == 0:
        return rows
    if is_seq:
        return SEQUENCE_ROW.sub(lambda found: b"\x1e%d" % (int(found[1]) + before), rows)
    return ROW.sub(lambda found: b"%d" % (int(found[0]) + before), rows)


# What runs here, afterwards.


def is_empty(command):
    return command in (b"", b"\r")


def is_edit(command):
    return command.startswith((b"append ", b"replace "))


def commands_of(script):
    with open(script, "rb") as file:
        commands = file.read().split(b"\n")
    return commands if commands[-1] else commands[:-1]


def scripts_for(commands, before):
    """The script of each block: an edit stands in that of the block which has its text, and an empty line in the others."""
    scripts = [list(commands) for _ in before]
    for place, command in enumerate(commands):
        if not is_edit(command):
            continue
        found = REPLACE.fullmatch(command)
        if not found and not command.startswith(b"append "):
            continue  # `error: command`, as every block says
        home = len(before) - 1
        if found:
            number = int(found[1])
            home = max(block for block, front in enumerate(before) if front < number)
            command = b"replace %d " % (number - before[home]) + found[2]
        for block, script in enumerate(scripts):
            script[place] = command if block == home else b""
    return scripts


def joined(command, ends, before):
    """The end of the whole answer, from those of the blocks that have one."""
    there = [(end, front) for end, front in zip(ends, before) if end]
    first, front = there[0]
    kinds = {NUMBER.sub(b"0", end) for end, _ in there}
    is_same = first.startswith((b"dropped", b"error: ")) or command.rstrip(b"\r") == b"indexes"
    if len(kinds) > 1 or is_same and len({end for end, _ in there}) > 1:
        raise RuntimeError(f"the blocks differ on {command[:80].decode(errors='replace')}: {sorted(kinds)}")
    if is_same:
        return first
    if is_edit(command):
        return NUMBER.sub(lambda found: b"%d" % (int(found[0]) + front), first)
    sums = map(sum, zip(*([int(number) for number in NUMBER.findall(end)] for end, _ in there)))
    return NUMBER.sub(b"%d", first) % tuple(sums)


def parts_of(client, commands, answered, told, is_seq):
    """What is to be written: rows, as what is asked of the workers for them, and ends."""
    before = [0, *itertools.accumulate(count for count, _, _ in told[:-1])]
    ends = [
        b"" if is_empty(command) else joined(command, [each[number] for _, each, _ in told], before)
        for number, command in enumerate(commands)
    ]
    for number, command in enumerate(commands):
        there = [block for block, (_, _, has_rows) in enumerate(told) if has_rows[number]]
        if command.startswith(b"explain ") or command.rstrip(b"\r") == b"indexes":
            there = there[:1]  # each block lists the same
        for block in there:
            yield client.submit(rows_of, answered[block], number, before[block], is_seq, pure=False)
        yield ends[number]


def write_all(parts, out):
    """Writes the parts in their order, with some more asked for than the one that is waited for."""
    asked = collections.deque()
    for part in parts:
        asked.append(part)
        while len(asked) > 16:
            write_part(asked.popleft(), out)
    while asked:
        write_part(asked.popleft(), out)
    with told_apart():
        out.flush()


def write_part(part, out):
    rows = part if isinstance(part, bytes) else part.result()
    with told_apart():
        out.write(rows)


@contextlib.contextmanager
def told_apart():
    """A write that fails is told apart from the faults of the workers."""
    try:
        yield
    except OSError as fault:
        raise Unwritten from fault


# jpgrep: what runs on the workers.


def lines_of(block):
    """How many line feeds a block has, and whether it has a line that is not blank."""
    count, has_text = 0, False
    front = MARK if block.is_first else b""
    for piece in pieces_of(block):
        count += piece.count(b"\n")
        has_text = has_text or piece[len(front) if piece.startswith(front) else 0 :].strip(b" \t\r\n") != b""
        front = b""
    return count, has_text


def found_in(block, before, arguments, program):
    """What jpgrep answers about a block with `before` lines before it."""
    with tempfile.TemporaryFile() as out, tempfile.TemporaryFile() as said:
        process = subprocess.Popen([program, *arguments], stdin=subprocess.PIPE, stdout=out, stderr=said)
        try:
            with contextlib.suppress(BrokenPipeError), process.stdin as pipe:
                for start in range(0, before, 1 << 20):
                    pipe.write(b"\n" * min(before - start, 1 << 20))
                for piece in pieces_of(block):
                    pipe.write(piece)
        except BaseException:
            process.kill()
            raise
        finally:
            status = process.wait()
        out.seek(0)
        said.seek(0)
        if status not in (0, 1, 2):
            message = said.read().decode(errors="replace").strip()
            raise RuntimeError(f"{block.path} from byte {block.start}: status {status}: {message}")
        return Found(status, out.read(), said.read())


def rows_found(found):
    return found.rows


def told_of(found, is_counted):
    """What is wanted here of what was found: all but the rows, unless they are a count."""
    return found._replace(rows=found.rows if is_counted else b"")


# jpgrep: what runs here.


def others_of(arguments):
    """The arguments of jpgrep for blocks but the first, which print no header, and whether lines are counted."""
    try:
        options, queries = getopt.gnu_getopt(arguments, SHORT, LONG)
    except getopt.GetoptError as fault:
        raise Unfit(f"not for jpgrep over blocks: {fault}") from None
    names = {name for name, _ in options}
    if len(queries) > (not names & {*VALUED, "--refused"}):
        raise Unfit("jpgrep over blocks takes one file")
    rest = [option for option in options if option[0] not in ("--header", "--names")]
    others = [f"{VALUED[name]}={value}" if name in VALUED else name for name, value in rest]
    return [*others, "--", *queries], bool(names & {"-c", "--count"})


def messages_of(name, early, note, blocks):
    """What one run says: from what it says early, the note, and for each block its messages and whether there is a line before
    it that is not blank."""
    yield early
    refused, goes_on, is_noted = 0, b"", bool(note)
    start = b"jpgrep: " + os.fsencode(name) + b":"
    for said, has_text_before in blocks:
        said = said[len(early) :]
        is_noted = is_noted and said.endswith(note)
        for line in (said[: -len(note)] if note and said.endswith(note) else said).splitlines(keepends=True):
            text = line[len(START) :] if line.startswith(START) else None
            if text is None:
                yield line
            elif more := MORE.match(text):
                refused += int(more[1])
            elif text.startswith(GOES_ON):
                goes_on = goes_on or (b"" if has_text_before else start + text)
            elif not REFUSED.fullmatch(text):
                yield start + text
            else:
                refused += 1
                if refused <= 10:
                    yield start + text
    if refused > 10:
        lines = b"line is" if refused == 11 else b"lines are"
        yield start + b" %d more %s refused; --refused lists them\n" % (refused - 10, lines)
    yield goes_on
    yield note if is_noted else b""


def run_alone(arguments, program, given=subprocess.DEVNULL):
    """What jpgrep answers here, of nothing or of a file."""
    done = subprocess.run([program, *arguments], stdin=given, capture_output=True)
    return Found(done.returncode, done.stdout, done.stderr)


def is_other_format(file, program):
    """Whether a file is data of another format, as compressed data are: some first bytes are enough to see it."""
    with open(file, "rb") as opened, tempfile.TemporaryFile() as front:
        front.write(opened.read(16))
        front.seek(0)
        return run_alone(["-q", "--refused"], program, front).status == 2


def search_all(client, name, arguments, blocks, program, out):
    """Runs jpgrep over the blocks of a file, and returns its exit status and its messages."""
    others, is_counted = others_of(arguments)
    early = run_alone(arguments, program)
    # After a pattern that is not valid, of which --check warns, a search goes on.
    if early.status == 2 and run_alone(["--check", *arguments], program).status != 1:
        return 2, early.said
    if is_other_format(name, program):
        whole = run_alone([*arguments, os.path.join(".", name) if name.startswith("-") else name], program)
        write_all([whole.rows], out)
        return whole.status, whole.said
    lines = client.gather([client.submit(lines_of, block, retries=2, pure=False) for block in blocks])
    before = [0, *itertools.accumulate(count for count, _ in lines[:-1])]
    had_text = [False, *itertools.accumulate((has_text for _, has_text in lines[:-1]), bool.__or__)]
    found = [
        client.submit(found_in, block, front, arguments if block.is_first else others, program, retries=2, pure=False)
        for block, front in zip(blocks, before)
    ]
    told = client.gather([client.submit(told_of, each, is_counted, pure=False) for each in found])
    if is_counted:
        write_all([b"%d\n" % sum(int(each.rows) for each in told)], out)
    else:
        write_all((client.submit(rows_found, each, pure=False) for each in found), out)
    note = NOTE.search(early.said)
    at = note.start() if note else len(early.said)
    messages = messages_of(name, early.said[:at], early.said[at:], zip((each.said for each in told), had_text))
    statuses = {each.status for each in told}
    return 2 if 2 in statuses else min(statuses), b"".join(messages)


def run_all(client, commands, blocks, program, out):
    scripts = [commands] * len(blocks)
    if any(map(is_edit, commands)):
        counts = client.gather([client.submit(answer, block, [], program, retries=2, pure=False) for block in blocks])
        scripts = scripts_for(commands, [0, *itertools.accumulate(count for count, _ in counts[:-1])])
    answered = [
        client.submit(answer, block, own, program, retries=2, pure=False) for block, own in zip(blocks, scripts)
    ]
    told = client.gather(client.map(ends_of, answered, pure=False))
    write_all(parts_of(client, commands, answered, told, blocks[0].is_seq), out)
    return 0, b""


def read_arguments(given):
    """The arguments; `search` has those after --jpgrep: the file and what jpgrep is given."""
    at = given.index("--jpgrep") if "--jpgrep" in given else None
    is_search = at is not None
    parser = argparse.ArgumentParser(
        description="Runs a script of jpq, or jpgrep, over blocks of files on a Dask cluster.",
        usage="""%(prog)s [OPTION].. SCHEDULER SCRIPT FILE..
       %(prog)s [OPTION].. SCHEDULER --jpgrep FILE [OPTION].. [QUERY]""",
    )
    parser.add_argument("scheduler", help="the file that the scheduler wrote, or its address")
    if not is_search:
        parser.add_argument("script", help="the file of commands")
        parser.add_argument("files", metavar="file", nargs="+", help="the collection, in one file or in many")
        parser.add_argument("--seq", action="store_true", help="the files are JSON text sequences")
    parser.add_argument("--block", type=int, default=64_000_000, metavar="BYTES", help="how large a block is, at least")
    program = "jpgrep" if is_search else "jpq"
    parser.add_argument("--program", default=program, help=f"{program}, as it is called here and on the workers")
    read = parser.parse_args(given[:at])
    read.search = given[at + 1 :] if is_search else []
    if is_search and not read.search:
        parser.error("--jpgrep takes a file")
    return read


def job_of(read):
    """What the arguments ask for: a call that takes the client and the output, and returns the exit status and the messages."""
    size = max(read.block, 1)
    if read.search:
        name, *arguments = read.search
        others_of(arguments)
        blocks = blocks_of([os.path.abspath(name)], size, unpacks=False)
        return lambda client, out: search_all(client, name, arguments, blocks, read.program, out)
    commands = commands_of(read.script)
    blocks = blocks_of([os.path.abspath(file) for file in read.files], size, read.seq)
    return lambda client, out: run_all(client, commands, blocks, read.program, out)


def main():
    logging.getLogger("asyncio").setLevel(logging.CRITICAL)  # what it tells of connections that end is Dask's own affair
    read = read_arguments(sys.argv[1:])
    try:
        job = job_of(read)
    except (OSError, Unfit) as fault:
        print(f"shards_dask.py: {fault}", file=sys.stderr)
        return 2
    where = {"scheduler_file" if os.path.isfile(read.scheduler) else "address": read.scheduler}
    try:
        with Client(**where, direct_to_workers=True) as client:
            status, said = job(client, sys.stdout.buffer)
    except Unwritten as unwritten:
        # what is left in the buffer goes nowhere, else it would be tried again at the end
        os.dup2(os.open(os.devnull, os.O_WRONLY), sys.stdout.fileno())
        if isinstance(unwritten.__cause__, BrokenPipeError):
            return 2 if read.search else 141
        print(f"shards_dask.py: cannot write: {unwritten.__cause__.strerror}", file=sys.stderr)
        return 2 if read.search else 15
    except Exception as fault:
        print(f"shards_dask.py: {type(fault).__name__}: {fault}", file=sys.stderr)
        return 3 if read.search else 1
    sys.stderr.buffer.write(said)
    return status


if __name__ == "__main__":
    sys.exit(main())
