"""Asks jpq from Python: JSONPath queries (RFC 9535) over a file with one JSON value per line.

    import jpq

    with jpq.open("log.jsonl") as log:
        for row in log.query("$..title"):
            print(row.line, row.path, row.value)
        print(log.check())

A row is (line, path, bytes), with the bytes as they are in the file. `row.value` is what `loads` makes of them, with numbers
that have a point or an exponent as `Decimal`, so that nothing is rounded.

If the library libjpq.so.0 is found, it answers within this process. Otherwise the program `jpq` runs next to Python for as long
as the log is open, and takes one command after another through two pipes. Either way the whole file is in memory, and both
answer the same. It needs only Python 3.8, and one of the two.

An answer is read as it is iterated. You may ask another command before its end: what is left is then kept in memory if you
still hold the answer, and dropped otherwise. Threads may share a log: each call waits for its turn.
"""

import builtins
import collections
import ctypes
import decimal
import errno
import io
import json
import mmap
import os
import re
import shutil
import subprocess
import tempfile
import threading
import weakref
from typing import Any, BinaryIO, Deque, Dict, Iterable, Iterator, List, NamedTuple, Optional, Set, Tuple, Type, Union, cast

__all__ = ["open", "loads", "Log", "Row", "Rows", "Refused", "Check", "Plan", "Mark", "Fault", "Surveyed", "Values", "Error", "Ended",
           "Refusal", "QueryRefusal", "IndexRefusal", "LineRefusal", "SizeRefusal", "SeparatorRefusal", "MemoryRefusal", "CommandRefusal"]


# What can be opened: the name of a file, its bytes, a binary file that is open, or the parts of its bytes in turn.
File = Union[str, "os.PathLike[str]", bytes, bytearray, memoryview, mmap.mmap, BinaryIO, Iterable[bytes]]
Text = Union[str, bytes]


class Row(NamedTuple):
    """A selected value: the number of its line, from 1, its normalized path, and its bytes as they stand in the file."""

    line: int
    path: str
    bytes: bytes

    @property
    def value(self) -> Any:
        """What `loads` makes of the bytes."""
        return loads(self.bytes)


class Refused(NamedTuple):
    """A refused line: its number, from 1, and the word of its fault."""

    line: int
    fault: str


class Check(NamedTuple):
    """How many lines there are, how many of them are refused and how many blank, and which are refused."""

    lines: int
    refused: int
    blank: int
    faults: Tuple[Refused, ...]


class Plan(NamedTuple):
    """The steps of a plan, how many lines it opens, and how many lines have a value."""

    steps: Tuple[str, ...]
    opened: int
    lines: int


class Mark(NamedTuple):
    """Where a selected value is in its line, from byte `start`, counted from 0, to the byte before `end`; and its path."""

    start: int
    end: int
    path: str


class Fault(NamedTuple):
    """Why a query or a condition is refused: one of size, syntax, integer, number, function, types; where, in bytes from 0;
    and, for a fault of the syntax, what the grammar expects there."""

    fault: str
    place: int
    expected: str


class Surveyed(NamedTuple):
    """The values of one kind at a path: in how many lines there is one, or None below an object that is folded; how many there are; the
    path, in which `[*]` stands for each index and `[**]` for each member of an object that is folded; and the kind, one of null,
    boolean, number, string, array, object."""

    lines: Optional[int]
    nodes: int
    path: str
    kind: str


class Values(NamedTuple):
    """Values, one on each line, and how many texts, elements or lines were refused and are left out."""

    lines: bytes
    refused: int


# What `Log.filter` shows, by its number in jpq.h.
SHOWN = {"nothing": 0, "lines": 1, "paths": 2, "csv": 3, "tsv": 4, "canonical lines": 5, "canonical paths": 6,
         "canonical values": 7, "values": 8, "text": 9}


# What `Log.values` takes for a value: its number in jpq.h, and the option of jpgrep.
UNITS: Dict[str, Tuple[int, List[str]]] = {"lines": (0, []), "texts": (1, ["--json"]), "elements": (2, ["--elements"])}


# A warning of jpgrep.
WARNED = re.compile(rb"^jpgrep: '(.*)' is not a valid I-Regexp \(RFC 9485\), so it matches nothing$", re.MULTILINE)


FAULTS = ("size", "syntax", "integer", "number", "function", "types")


# The line that ends an answer begins so. No row does: it begins with its number (in a sequence with the byte 1E), with the `$`
# of an index or with another word of a plan. Nor does a line within a value of a sequence, as no token of JSON begins with one
# of these letters, and no string holds a line feed.
ENDS = re.compile(rb"= |error: |open |indexed |dropped|appended |replaced ")
END_LINE = re.compile(rb"^(?:" + ENDS.pattern + rb").*\n", re.MULTILINE)
SEPARATOR = b"\x1e"
BLOCK = 1 << 16


class Error(Exception):
    """The base of all exceptions of this module."""


class Ended(Error):
    """jpq ended, or could not begin: `status` is its exit status, `message` what it said."""

    def __init__(self, status: int, message: str) -> None:
        super().__init__(f"{message or 'jpq ended'} (status {status})")
        self.status, self.message = status, message


class Refusal(Error):
    """A command that was answered by `error:`, and changed nothing: `fault` is what follows that word."""

    def __init__(self, fault: str, command: bytes) -> None:
        super().__init__(f"{fault}: {command[:200].decode(errors='replace')}")
        self.fault, self.command = fault, command


class QueryRefusal(Refusal):
    """`query` or, of a condition, `condition`, and one of syntax, integer, function, types, size, number; or `query column`,
    where a query is a column of a table and may select more than one value. `found` is its fault, if the library answers."""

    found: Optional[Fault] = None

    @property
    def place(self) -> Optional[str]:
        """Where the query goes wrong: the words for it, the query, and a caret below the place. If jpgrep is on the path, also
        what was probably meant, where jpgrep has a rule for that. None if neither jpgrep nor the library finds the place."""
        word, _, given = self.command.partition(b" ")
        query = given.replace(b"\r", b" ")
        try:
            option = b"--where=" if word == b"where" else b"--query="
            said = subprocess.run(["jpgrep", "--check", option + query], stdin=subprocess.DEVNULL, capture_output=True).stderr
        except (OSError, ValueError):
            return self._excerpt(query)
        return said.decode(errors="replace").rstrip("\n") or self._excerpt(query)

    def _excerpt(self, query: bytes) -> Optional[str]:
        if self.found is None:
            return None
        expected = f": expected {self.found.expected}" if self.found.expected else ""
        before, whole = (text.decode(errors="replace") for text in (query[:self.found.place], query))
        return f"{self.fault.replace(' ', ': ', 1)}{expected}\n  {whole}\n  {' ' * len(before)}^"


class IndexRefusal(Refusal):
    """`index` and one of path, exists, limit, missing."""


class LineRefusal(Refusal):
    """There is no line of this number."""


class SizeRefusal(Refusal):
    """With this edit all lines together would have 4 GiB or more."""


class SeparatorRefusal(Refusal):
    """The text of an edit contains the byte that separates texts."""


class MemoryRefusal(Refusal):
    """Out of memory for the command."""


class CommandRefusal(Refusal):
    """This jpq has no such command."""


REFUSALS: Dict[str, Type[Refusal]] = {"query": QueryRefusal, "index": IndexRefusal, "line": LineRefusal, "size": SizeRefusal,
            "separator": SeparatorRefusal, "memory": MemoryRefusal, "command": CommandRefusal}


def open(file: File, *, seq: bool = False, program: Optional[str] = None, library: Optional[str] = None) -> "Log":
    """Loads a file, or with `seq` a text sequence (RFC 7464), and answers the Log.

    The file is a name, bytes, a binary file that is open, which is read from where it stands to its end, or an iterable that
    gives its bytes part by part. `library` is the libjpq to use, a file or a folder that `tools/library` made, and `program` the
    jpq to run: by default the library that the environment has as JPQ_LIBRARY, or else libjpq.so.0 if it is found, and else the
    program that the environment has as JPQ, or the one on the path. Raises OSError if the file cannot be opened or read, and
    Ended if it cannot be loaded."""
    return Log(file, seq=seq, program=program, library=library)


def loads(value: Text) -> Any:
    """The value that bytes spell, with nothing rounded: Decimal for numbers with a point or an exponent, int for others."""
    return json.loads(value, parse_float=decimal.Decimal, parse_int=_whole)


def _whole(digits: str) -> Union[int, decimal.Decimal]:
    # Python does not read an int of more than 4,300 digits
    return int(digits) if len(digits) < 4000 else decimal.Decimal(digits)


# Bytes that the library can be given where they are.
Buffer = Union[bytes, bytearray, memoryview, mmap.mmap]


class _Engine:
    """What answers commands: the answer of one comes in blocks, and is read line by line."""

    def __init__(self) -> None:
        self._held, self._at = b"", 0

    def ask(self, command: bytes) -> None:
        """Asks a command with its line feed. The answer before was read, or is dropped."""
        raise NotImplementedError

    def block(self) -> bytes:
        """More bytes of the answer; none where the engine ended."""
        raise NotImplementedError

    def end(self) -> Ended:
        """Ends the engine, and returns what to raise."""
        raise NotImplementedError

    def unloaded(self, ended: Ended) -> Exception:
        """What to raise where the engine ended before the file was loaded."""
        return ended

    def line(self) -> bytes:
        """The next line, with its line feed."""
        end = self._held.find(b"\n", self._at)
        while end < 0:
            more = self.block()
            if not more:
                raise self.end()
            seen = len(self._held) - self._at
            self._held, self._at = self._held[self._at:] + more, 0
            end = self._held.find(b"\n", seen)
        line, self._at = self._held[self._at:end + 1], end + 1
        return line

    def skip(self) -> None:
        """Passes over the answer to its end."""
        while not (end := END_LINE.search(self._held[self._at:])):
            last = self._held.rfind(b"\n", self._at) + 1 or self._at
            more = self.block()
            if not more:
                raise self.end()
            self._held, self._at = self._held[last:] + more, 0
        self._at += end.end()


class _Program(_Engine):
    """The program, asked through two pipes."""

    CANNOT_OPEN, CANNOT_READ = 3, 11  # its exit statuses for the file

    def __init__(self, file: Any, seq: bool, program: Optional[str]) -> None:
        super().__init__()
        self._ended: Optional[Ended] = None
        name: Union[str, bytes]
        copy = None
        if isinstance(file, (str, os.PathLike)):
            name = os.fspath(file)
            # What cannot be opened is told as Python tells it. A pipe is left to the program, as its bytes come once.
            if not _is_pipe(name):
                builtins.open(name, "rb").close()
        else:
            copy = tempfile.TemporaryFile()
            shutil.copyfileobj(file if hasattr(file, "read") else io.BytesIO(file), copy)
            copy.seek(0)
            name = f"/dev/fd/{copy.fileno()}"
        self._name = name
        if isinstance(name, bytes):
            name = os.path.join(b".", name) if name.startswith(b"-") else name
        elif name.startswith("-"):
            name = os.path.join(".", name)
        words: List[Union[str, bytes]] = [program if program else os.environ.get("JPQ", "jpq"), name]
        words += ["--seq"] if seq else []
        self._said = tempfile.TemporaryFile()
        try:
            process = subprocess.Popen(words, stdin=subprocess.PIPE, stdout=subprocess.PIPE, stderr=self._said,
                                       pass_fds=(copy.fileno(),) if copy else ())
        except OSError:
            self._said.close()
            raise
        finally:
            if copy:
                copy.close()
        assert process.stdin and process.stdout
        self._process, self._in = process, process.stdin
        self._out = cast(io.BufferedReader, process.stdout)

    def ask(self, command: bytes) -> None:
        try:
            self._in.write(command)
            self._in.flush()
        except (BrokenPipeError, ConnectionResetError):
            raise self.end() from None

    def block(self) -> bytes:
        return self._out.read1(BLOCK)

    def end(self) -> Ended:
        if self._ended is None:
            for pipe in (self._in, self._out):
                try:
                    pipe.close()
                except OSError:
                    pass
            status = self._process.wait()
            with self._said:
                self._said.seek(0)
                self._ended = Ended(status, self._said.read().decode(errors="replace").strip())
        return self._ended

    def unloaded(self, ended: Ended) -> Exception:
        if ended.status in (self.CANNOT_OPEN, self.CANNOT_READ):
            return OSError(errno.EIO, ended.message, self._name)
        return ended


class _Handle(ctypes.Structure):
    _fields_ = [("at", ctypes.c_void_p), ("is_open", ctypes.c_bool), ("spare", ctypes.c_uint64 * 2)]


class _Library(_Engine):
    """The library, in this process."""

    MESSAGES = {11: "cannot read", 12: "collection too large", 13: "bytes before first separator", 14: "script too large",
                16: "out of memory"}

    def __init__(self, file: Any, seq: bool, calls: ctypes.CDLL) -> None:
        super().__init__()
        self._calls, self._handle = calls, _Handle()
        self._ended: Optional[Ended] = None
        self._room = ctypes.create_string_buffer(BLOCK)
        if hasattr(file, "read"):
            status = self._load(file.read(), seq)
        elif isinstance(file, (str, os.PathLike)):
            with builtins.open(file, "rb") as opened:
                if os.fstat(opened.fileno()).st_size == 0:  # a pipe, say
                    status = self._load(opened.read(), seq)
                else:
                    with mmap.mmap(opened.fileno(), 0, access=mmap.ACCESS_COPY) as whole:
                        status = self._load(whole, seq)
        else:
            status = self._load(file, seq)
        if status:
            raise self._end(status)

    @staticmethod
    def find(name: str) -> Optional[ctypes.CDLL]:
        """The calls of a library, which is a file or a folder that `tools/library` made, or None if it is not found."""
        try:
            calls = ctypes.CDLL(os.path.join(name, "lib", "libjpq.so.0") if os.path.isdir(name) else name)
            text, length, handle = ctypes.c_void_p, ctypes.c_size_t, ctypes.POINTER(_Handle)
            call: Any
            for call, answers, takes in (
                    (calls.jpq_open, ctypes.c_uint32, [text, length, ctypes.c_uint32, ctypes.c_uint32, handle]),
                    (calls.jpq_ask, ctypes.c_uint32, [handle, ctypes.c_char_p, length]),
                    (calls.jpq_left, length, [handle]), (calls.jpq_read, length, [handle, text, length]),
                    (calls.jpq_line, ctypes.c_uint32, [handle, ctypes.c_uint64]),
                    (calls.jpq_marks, ctypes.c_uint32, [handle, ctypes.c_uint64, ctypes.c_char_p, length]),
                    (calls.jpq_filter, ctypes.c_uint32, [handle, text, length, ctypes.c_char_p, length, ctypes.c_char_p, length,
                                                         ctypes.c_uint32, ctypes.c_bool]),
                    (calls.jpq_survey, ctypes.c_uint32, [handle, text, length, ctypes.c_char_p, length, ctypes.c_uint64]),
                    (calls.jpq_values, ctypes.c_uint32, [handle, text, length, ctypes.c_uint32, ctypes.POINTER(ctypes.c_uint64)]),
                    (calls.jpq_fault, ctypes.c_uint32, [ctypes.c_char_p, length, ctypes.c_bool, ctypes.POINTER(ctypes.c_uint64),
                                                        ctypes.POINTER(ctypes.c_uint64), text, length]),
                    (calls.jpq_pattern, ctypes.c_uint32, [ctypes.c_char_p, length, ctypes.c_bool, ctypes.c_uint64,
                                                          ctypes.POINTER(ctypes.c_uint64), text, length]),
                    (calls.jpq_close, None, [handle])):
                call.restype, call.argtypes = answers, takes
        except (OSError, AttributeError):
            return None
        return calls

    @staticmethod
    def _place(given: Buffer) -> Tuple[Any, int]:
        """Where bytes begin, and how many they are."""
        length = memoryview(given).nbytes
        if length == 0 or memoryview(given).readonly:  # ctypes finds the place of bytes, and of what may be written
            return ctypes.c_char_p(bytes(given)), length
        return ctypes.byref(ctypes.c_char.from_buffer(given)), length  # type: ignore[arg-type]

    def _load(self, given: Buffer, seq: bool) -> int:
        place, length = self._place(given)
        status: int = self._calls.jpq_open(place, length, int(seq), 0xFFFFFFFF, self._handle)
        del place
        return status

    def kept(self, call: str, *given: Any) -> Tuple[int, bytes]:
        """The status of a call, and all that it kept to be read."""
        self._held, self._at = b"", 0
        status = getattr(self._calls, call)(self._handle, *given)
        room = ctypes.create_string_buffer(self._calls.jpq_left(self._handle) or 1)
        count = self._calls.jpq_read(self._handle, room, len(room))
        return status, room.raw[:count]

    def of_text(self, call: str, text: Buffer, *given: Any) -> Tuple[int, bytes]:
        """The status of a call over a text, and all that it kept to be read."""
        place, length = self._place(text)
        found = self.kept(call, place, length, *given)
        del place
        return found

    def fault(self, text: bytes, is_condition: bool) -> Optional[Fault]:
        """The first fault of a query or a condition, or None."""
        place, words, room = ctypes.c_uint64(), ctypes.c_uint64(), ctypes.create_string_buffer(128)
        number = self._calls.jpq_fault(text, len(text), is_condition, place, words, room, len(room))
        if number == 16:
            raise MemoryRefusal("memory", text)
        return Fault(FAULTS[number - 1], place.value, room.raw[:words.value].decode()) if number else None

    def pattern(self, text: bytes, is_condition: bool, number: int) -> Tuple[int, str]:
        """The status of a call, and the pattern that it told."""
        length, room = ctypes.c_uint64(), ctypes.create_string_buffer(len(text) + 1)  # no pattern is longer than its spelling
        status = self._calls.jpq_pattern(text, len(text), is_condition, number, length, room, len(room))
        return status, room.raw[:length.value].decode()

    def ask(self, command: bytes) -> None:
        self._held, self._at = b"", 0
        if self._calls.jpq_ask(self._handle, command, len(command)):
            raise self._end(16)

    def block(self) -> bytes:
        count = self._calls.jpq_read(self._handle, self._room, BLOCK)
        return cast(bytes, self._room[:count])

    def skip(self) -> None:
        self._held, self._at = b"", 0

    def _end(self, status: int) -> Ended:
        self._calls.jpq_close(self._handle)
        self._ended = Ended(status, f"jpq: {self.MESSAGES[status]}" if status else "")
        return self._ended

    def end(self) -> Ended:
        return self._ended or self._end(0)

    def __del__(self) -> None:
        if self._handle.is_open:
            self._calls.jpq_close(self._handle)


def _is_pipe(name: Union[str, bytes]) -> bool:
    """Whether there is something of this name that is neither a file nor a folder."""
    return os.path.exists(name) and not os.path.isfile(name) and not os.path.isdir(name)


def _given(file: File) -> Any:
    """A file as both engines take it: a name, bytes or an open file."""
    if isinstance(file, (str, os.PathLike)) or hasattr(file, "read"):
        return file
    try:
        memoryview(file)  # type: ignore[arg-type]
    except TypeError:
        return b"".join(cast(Iterable[bytes], file))
    return file


def _engine(file: File, seq: bool, program: Optional[str], library: Optional[str]) -> _Engine:
    """What answers: the library where it is found, and else the program."""
    given = _given(file)
    if program is None:
        for name in (library,) if library else (os.environ.get("JPQ_LIBRARY"), "libjpq.so.0"):
            calls = _Library.find(name) if name else None
            if calls:
                return _Library(given, seq, calls)
        if library:
            raise OSError(f"no library {library}")
    return _Program(given, seq, program)


class _Where:
    """The lines for which a condition holds. It is asked as a filter over the children of a line's value, where the line is
    `$`. A value without children, such as a number, is asked as the element of an array in another collection."""

    def __init__(self, log: "Log", condition: bytes) -> None:
        self._log, self._condition = log, condition
        self._known: Dict[bytes, bool] = {}
        try:
            self._lines = {row.line for row in log.query(_filter(condition, b"$", b"$"))}
        except QueryRefusal as refusal:
            raise log._refusal(refusal.fault.replace("query", "condition", 1), b"where " + condition) from None

    def has(self, row: Row) -> bool:
        """Whether the condition holds for the line of a row."""
        if row.line in self._lines or row.path != "$" or not self._is_bare(row.bytes):
            return row.line in self._lines
        if row.bytes not in self._known:
            self._known[row.bytes] = self._log._selects(_filter(self._condition, b"@", b"$[0]"), row.bytes)
        return self._known[row.bytes]

    @staticmethod
    def _is_bare(value: bytes) -> bool:
        """Whether a value has no children."""
        return value[:1] not in (b"[", b"{") or not value[1:-1].strip()


# The tokens that matter in a condition: a string; and outside strings a bracket, or what stands for the line or a node.
TOKENS = re.compile(rb"""'(?:[^'\\]|\\.)*'?|"(?:[^"\\]|\\.)*"?|[][()@$]""", re.DOTALL)
OPENS = {b")": b"(", b"]": b"["}


def _filter(condition: bytes, line: bytes, root: bytes) -> bytes:
    """The filter that asks a condition of a line's value, which is `line` for the condition's own `@` and `root` for its `$`.
    An `@` in brackets is a node of a filter within the condition, and stays."""
    parts, end, still_open = [], 0, []
    for token in TOKENS.finditer(condition):
        word = token[0]
        if word in (b"(", b"["):
            still_open.append(word)
        elif word in OPENS and still_open[-1:] != [OPENS[word]]:
            raise QueryRefusal("condition syntax", b"where " + condition)
        elif word in OPENS:
            still_open.pop()
        elif word == b"$" or word == b"@" and b"[" not in still_open:
            parts += [condition[end:token.start()], root if word == b"$" else line]
            end = token.end()
    return b"$[?(" + b"".join(parts) + condition[end:] + b")]"


class Rows:
    """The rows of an answer: iterates over the values, as Row. `refused` has the lines that were refused so far, and `count`
    how many values there are, or None until the last was read."""

    refused: List[Refused]
    count: Optional[int]

    def __init__(self, log: "Log", where: Optional[_Where] = None) -> None:
        self.refused, self.count = [], None
        self._log, self._where, self._passed = log, where, 0
        self._kept: Deque[bytes] = collections.deque()
        self._end: Optional[bytes] = None

    def __iter__(self) -> Iterator[Row]:
        return self

    def __next__(self) -> Row:
        while True:
            with self._log._lock:
                found = self._next()
            if found is None:
                self.count = self._passed
                raise StopIteration
            number, _, rest = found.lstrip(SEPARATOR).partition(b"\t")
            path, tab, value = rest.partition(b"\t")
            if not tab:
                self.refused.append(Refused(int(number), path[1:].decode()))
                continue
            row = Row(int(number), path.decode(), value)
            if self._where is None or self._where.has(row):
                self._passed += 1
                return row

    def _next(self) -> Optional[bytes]:
        """The bytes of the next row, or None."""
        if not self._kept and self._end is None:
            self._read()
        return self._kept.popleft() if self._kept else None

    def _read(self) -> None:
        """Reads one more row, or the end of the answer."""
        row = self._log._row()
        if ENDS.match(row):
            self._end = row
        else:
            self._kept.append(row)

    def _finish(self) -> None:
        while self._end is None:
            self._read()


class Log:
    """An open file. Each call raises the Refusal of its kind if jpq answers `error:`, and Ended if jpq ended."""

    def __init__(self, file: File, *, seq: bool = False, program: Optional[str] = None, library: Optional[str] = None) -> None:
        self._lock = threading.RLock()
        self._ahead: Optional[bytes] = None
        self._asked: Optional["weakref.ref[Rows]"] = None
        self._is_open = self._is_closed = False
        self._named, self._beside = (program, library), cast(Optional["Log"], None)
        self._engine = _engine(file, seq, program, library)
        try:
            self.indexes()  # answered when the file is loaded
        except Ended as ended:
            raise self._engine.unloaded(ended) from None
        except BaseException:
            self._engine.end()
            raise

    def __enter__(self) -> "Log":
        return self

    def __exit__(self, kind: Any, *_: Any) -> None:
        try:
            self.close()
        except Ended:
            if kind is None:
                raise

    def close(self) -> None:
        """Ends jpq. Raises Ended if its status is not 0. A second call does nothing."""
        with self._lock:
            if not self._is_closed:
                self._is_closed = True
                if self._beside is not None:
                    self._beside.close()
                is_read = not self._is_open  # where it is not, jpq is hung up on, and its status is of that
                ended = self._engine.end()
                if ended.status and is_read:
                    raise ended

    def query(self, query: Text, *, where: Text = "") -> Rows:
        """The values that the query selects, as Rows: with `where` only those of the lines of which this condition holds, as
        with `jpgrep -w`. In it `@` and `$` are the value of the line. It is asked first, as a query, and indexes serve it."""
        condition = _query(where)
        with self._lock:
            return self._rows("query", _query(query), _Where(self, condition) if condition else None)

    def check(self) -> Check:
        """How many lines there are, how many refused and how many blank, and each refused one in `faults`."""
        rows = self._rows("check", None)
        for _ in rows:
            pass
        assert rows._end is not None
        lines, refused, blank = map(int, re.findall(rb"\d+", rows._end))
        return Check(lines, refused, blank, tuple(rows.refused))

    def index(self, path: Text) -> int:
        """Makes an index by the value at the path of a singular query; returns how many lines have one."""
        return int(self._one("index", _query(path)).split()[1])

    def drop(self, path: Text) -> None:
        """Deletes an index."""
        self._one("drop", _query(path))

    def indexes(self) -> Tuple[str, ...]:
        """The paths of the indexes."""
        return self._lines("indexes", None)[0]

    def explain(self, query: Text) -> Plan:
        """How the query would be answered: the steps, how many lines it opens, and how many there are."""
        steps, end = self._lines("explain", _query(query))
        opened, lines = map(int, re.findall(rb"\d+", end))
        return Plan(steps, opened, lines)

    def append(self, text: Text) -> int:
        """Adds a line at the end, in memory only; returns its number."""
        return int(self._one("append", text).split()[1])

    def replace(self, line: int, text: Text) -> None:
        """Replaces a line, in memory only."""
        self._one(f"replace {int(line)}", text)

    def line(self, number: int) -> bytes:
        """The bytes of a line. This call, `marks`, `filter` and `fault` need the library, and raise Error where the program answers."""
        return self._kept("line", b"", "jpq_line", _number(number))

    def marks(self, number: int, query: Text) -> List[Mark]:
        """Where each value that the query selects in a line stands in it, in the query's order."""
        query = _bytes(query)
        rows = self._kept("marks", query, "jpq_marks", _number(number), query, len(query))
        parts = (row.split(b"\t", 2) for row in rows.splitlines())
        return [Mark(int(start), int(end), path.decode()) for start, end, path in parts]

    def filter(self, text: Buffer, *queries: Text, where: Text = "", show: str = "values", numbered: bool = False) -> bytes:
        """The rows of the lines of a text that answer a condition and queries, as jpgrep writes them, whatever file is open.

        A line answers if the condition `where`, if there is one, holds for it, and a query selects a value of it; without a
        query each line does. `show` is what a row has: "lines", "values", "paths" (each value after its path), "text" (strings
        as their characters), "canonical lines", "canonical values", "canonical paths", or "nothing"; or "csv" and "tsv" for
        tables, in which each query is a column and a line needs no value. `numbered` puts the line number before each row."""
        if show not in SHOWN:
            raise ValueError(f"there is nothing to show that is called {show!r}")
        self._library()
        condition, asked = _bytes(where), [_query(query) for query in queries]
        lines = b"\n".join(asked)
        status, rows = self._of_text("jpq_filter", text, condition, len(condition), lines, len(lines), SHOWN[show], bool(numbered))
        if status == 3:
            for command in [b"where " + condition] * bool(where) + [b"query " + query for query in asked if query]:
                refusal = self._refusal("", command)
                if refusal.found:
                    raise refusal
            raise QueryRefusal("query column", b"query " + b" ".join(asked))
        return self._found(status, rows, condition)

    def survey(self, text: Buffer, *, where: Text = "", fold: int = 1000) -> List[Surveyed]:
        """What is in the lines of a text, whatever file is open: for each path and kind of value how many there are, as
        `jpgrep --paths` lists it, in its order. With `where` only the lines count for which this condition holds. An object is
        folded if it has more than `fold` names. Without the library the program jpgrep answers."""
        condition, most = _query(where), max(0, min(int(fold), (1 << 64) - 1))
        if isinstance(self._engine, _Library):
            status, rows = self._of_text("jpq_survey", text, condition, len(condition), most)
            if status == 3:
                raise self._refusal("", b"where " + condition)
            rows = self._found(status, rows, condition)
        else:
            rows = self._grep(text, condition, "--paths", "--fold", str(most), *[b"--where=" + condition] * bool(condition))
        parts = (row.decode().split("\t") for row in rows.split(b"\n")[:-1])
        return [Surveyed(None if lines == "-" else int(lines), int(nodes), path, kind) for lines, nodes, path, kind in parts]

    def values(self, text: Buffer, units: str = "texts") -> Values:
        """The values of a text that is not JSON Lines, one on each line, whatever file is open: its JSON "texts", one after another
        over any number of lines, or the "elements" of those that are arrays; or of its "lines". What is refused is left out.
        Without the library the program jpgrep answers."""
        if units not in UNITS:
            raise ValueError(f"there are no units that are called {units!r}")
        number, words = UNITS[units]
        if isinstance(self._engine, _Library):
            refused = ctypes.c_uint64()
            return Values(self._found(*self._of_text("jpq_values", text, number, refused), b""), refused.value)
        return Values(self._grep(text, b"", *words, "$"), int(self._grep(text, b"", "--count", "--refused", *words)))

    def fault(self, text: Text, *, condition: bool = False) -> Optional[Fault]:
        """The first fault of a query, or of a condition; None where it has none."""
        engine = self._library()
        with self._lock:
            return engine.fault(_bytes(text), condition)

    def patterns(self, text: Text, *, condition: bool = False) -> List[str]:
        """The patterns of match and search in a query, or in a condition, that are not valid (RFC 9485) and so match nothing, in its
        order. Only those are looked at that are written in it. Without the library the program jpgrep tells them, with control
        characters escaped."""
        given, word = _query(text), b"where " if condition else b"query "
        if not isinstance(self._engine, _Library):
            return self._warned(given, condition)
        found: List[str] = []
        while True:
            with self._lock:
                status, pattern = self._library().pattern(given, condition, len(found))
            if status == 6:
                return found
            if status:
                raise self._refusal("", word + given) if status == 3 else MemoryRefusal("memory", given)
            found.append(pattern)

    def _warned(self, text: bytes, condition: bool) -> List[str]:
        """The patterns of which jpgrep warns."""
        if self._is_closed:
            raise ValueError("the log is closed")
        option = b"--where=" if condition else b"--query="
        try:
            done = subprocess.run(["jpgrep", "--check", option + text], stdin=subprocess.DEVNULL, capture_output=True)
        except FileNotFoundError:
            raise Error("this call needs the library libjpq.so.0 or the program jpgrep") from None
        if done.returncode == 2:
            # jpq tells why a text is refused
            if condition:
                _Where(self, text)
            else:
                self.explain(text)
            raise Error(done.stderr.decode(errors="replace"))
        return [pattern.decode() for pattern in WARNED.findall(done.stderr)]

    def _selects(self, query: bytes, value: bytes) -> bool:
        """Whether a query selects anything in the array of a value, which has no children."""
        with self._lock:
            if self._is_closed:
                raise ValueError("the log is closed")
            if self._beside is None:
                self._beside = Log(b"0", program=self._named[0], library=self._named[1])
            self._beside.replace(1, b"[" + value.replace(b"\n", b"") + b"]")
            return any(True for _ in self._beside.query(query))

    def _refusal(self, fault: str, command: bytes) -> QueryRefusal:
        """A refused query or condition. Where the library answers it has the fault's place, and its name if none is given."""
        word, _, text = command.partition(b" ")
        refusal = QueryRefusal(fault, command)
        if isinstance(self._engine, _Library):
            refusal.found = self._engine.fault(text, word == b"where")
        if refusal.found and not fault:
            return self._refusal(f"{'condition' if word == b'where' else 'query'} {refusal.found.fault}", command)
        return refusal

    def _library(self) -> _Library:
        """What answers, where that is the library."""
        if self._is_closed:
            raise ValueError("the log is closed")
        if not isinstance(self._engine, _Library):
            raise Error("this call needs the library libjpq.so.0")
        return self._engine

    def _of_text(self, call: str, text: Buffer, *given: Any) -> Tuple[int, bytes]:
        """The status of a call of the library over a text, and what it kept to be read."""
        engine = self._library()
        with self._lock:
            self._put_aside()
            return engine.of_text(call, text, *given)

    @staticmethod
    def _found(status: int, rows: bytes, condition: bytes) -> bytes:
        """What was found in a text, unless its status says that nothing was."""
        if status == 5:
            raise Error("the text begins as data of another format do, as compressed ones")
        if status:
            raise MemoryRefusal("memory", condition)
        return rows

    def _grep(self, text: Buffer, condition: bytes, *words: Union[str, bytes]) -> bytes:
        """What jpgrep writes of a text."""
        if self._is_closed:
            raise ValueError("the log is closed")
        try:
            done = subprocess.run(["jpgrep", "-s", *words], input=bytes(text), capture_output=True)
        except FileNotFoundError:
            raise Error("this call needs the library libjpq.so.0 or the program jpgrep") from None
        said = done.stderr.decode(errors="replace")
        if condition and done.returncode == 2 and "out of memory" not in said:
            _Where(self, condition)  # jpq tells why a condition is refused
        if said and done.returncode == 2:
            raise MemoryRefusal("memory", condition) if "out of memory" in said else Error(said)
        return self._found(5 if done.returncode == 2 else 0, done.stdout, condition)

    def _put_aside(self) -> None:
        """Reads what is left of the answer before, as another takes its place."""
        self._settle()
        self._ahead, self._is_open = None, False

    def _kept(self, command: str, query: bytes, call: str, *given: Any) -> bytes:
        """What a call keeps to be read."""
        engine = self._library()
        with self._lock:
            self._put_aside()
            status, rows = engine.kept(call, *given)
            if status == 3:
                raise self._refusal("", b"query " + query)
        if status:
            asked = f"{command} {given[0]}".encode()
            raise LineRefusal("line", asked) if status == 4 else MemoryRefusal("memory", asked)
        return rows

    # At most one answer is on its way, and it is read to its end before the next command is asked: otherwise the program could
    # wait for its answer to be read while this waits for it to read.

    def _ask(self, word: str, text: Optional[Text]) -> bytes:
        """Asks a command, and returns the first row of its answer, which may be its end."""
        command = word.encode()
        if text is not None:
            command += b" " + _bytes(text)
        if b"\n" in command:
            raise ValueError("a command of jpq is one line, and this one has a line feed")
        if self._is_closed:
            raise ValueError("the log is closed")
        self._settle()
        # jpq drops a carriage return at the end
        self._ahead, self._is_open = None, True
        self._engine.ask(command + (b"\r\n" if command.endswith(b"\r") else b"\n"))
        row = self._row()
        if row.startswith(b"error: "):
            fault = row[7:].decode()
            kind = REFUSALS.get(fault.split()[0], Refusal)
            raise self._refusal(fault, command) if kind is QueryRefusal else kind(fault, command)
        return row

    def _settle(self) -> None:
        """Reads what is left of the answer before: for its Rows, if somebody still holds them."""
        rows, self._asked = self._asked() if self._asked else None, None
        if rows is not None:
            rows._finish()
        if self._is_open:
            if not (self._ahead and ENDS.match(self._ahead)):
                self._engine.skip()
            self._is_open = False

    def _rows(self, word: str, text: Optional[Text], where: Optional[_Where] = None) -> Rows:
        with self._lock:
            first = self._ask(word, text)
            rows = Rows(self, where)
            if ENDS.match(first):
                rows._end = first
            else:
                rows._kept.append(first)
                self._asked = weakref.ref(rows)
            return rows

    def _lines(self, word: str, text: Optional[Text]) -> Tuple[Tuple[str, ...], bytes]:
        """The lines of an answer but its end, as text, and its end."""
        with self._lock:
            lines = [self._ask(word, text)]
            while not ENDS.match(lines[-1]):
                lines.append(self._row())
            return tuple(line.decode() for line in lines[:-1]), lines[-1]

    def _one(self, word: str, text: Optional[Text]) -> bytes:
        """The one line of an answer."""
        with self._lock:
            return self._ask(word, text)

    def _row(self) -> bytes:
        """The next row, or the line that ends the answer, without its line feed."""
        row, self._ahead = self._ahead or self._line(), None
        if row.startswith(SEPARATOR):
            parts = [row]
            while not ENDS.match(line := self._line()) and not line.startswith(SEPARATOR):
                parts.append(line)
            row, self._ahead = b"\n".join(parts), line
        self._is_open = not ENDS.match(row)
        return row

    def _line(self) -> bytes:
        if self._is_closed:
            raise ValueError("the log is closed")
        return self._engine.line()[:-1]


def _query(text: Text) -> bytes:
    """A query as one line: a carriage return is white space in it just as a line feed is."""
    return _bytes(text).replace(b"\n", b"\r")


def _bytes(text: Text) -> bytes:
    return text.encode() if isinstance(text, str) else bytes(text)


def _number(number: int) -> int:
    """The number of a line as the library takes it, or 0, which no line has, if it cannot be one."""
    return number if 0 <= number < 1 << 64 else 0
