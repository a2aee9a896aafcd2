"""Asks the programs what the model is asked, and says whether they answer alike."""

import ctypes
import os
import subprocess
import tempfile

from . import queries
from .scripts import Collection

INDEXES = [b"index $", b"index $.a", b"index $.a.b", b"index $[0]", b"index $['b']"]


def collection(case):
    """The bytes of a collection."""
    if case.is_sequence:
        return b"".join(b"\x1e" + line + b"\n" for line in case.lines)
    return b"".join(line + b"\n" for line in case.lines)


def script(case):
    return b"".join(command + b"\n" for command in case.commands)


def modelled(case):
    """What jpq and jpgrep have to write, and whether jpgrep refuses the question."""
    given = Collection(collection(case), case.is_sequence)
    try:
        conditions = [queries.parse_condition(condition) for condition in case.conditions]
        each = queries.parse(case.each) if case.each else None
        origin = "@" if case.each and case.query.startswith(b"@") else "$"
        asked = origin, queries.parse(case.query, origin)
        found = given.filtered(conditions, each, asked, case.shown, case.is_inverted, case.most, case.around)
    except queries.Refused:
        found = None
    return given.run(script(case)), found


class Library:
    """libjpq, asked by one call a script (`c/jpq.h`)."""

    def __init__(self, name):
        self.calls = ctypes.CDLL(os.path.join(name, "lib", "libjpq.so.0") if os.path.isdir(name) else name)
        self.calls.jpq_read.restype = ctypes.c_size_t

    def run(self, case):
        """What it answers to the script."""
        given, asked, handle = collection(case), script(case), (ctypes.c_uint64 * 4)()
        self.calls.jpq_run(given, ctypes.c_size_t(len(given)), int(case.is_sequence), ctypes.c_uint32(0xFFFFFFFF),
                           asked, ctypes.c_size_t(len(asked)), handle)
        room, answers = ctypes.create_string_buffer(1 << 12), b""
        while count := self.calls.jpq_read(handle, room, ctypes.c_size_t(len(room))):
            answers += room.raw[:count]
        self.calls.jpq_close(handle)
        return answers


class Programs:
    """The programs, the library where there is one, and a folder for what they read."""

    def __init__(self, top):
        self.jpq = os.environ.get("JPQ", os.path.join(top, "crates/jpq/out/jpq"))
        self.jpgrep = os.environ.get("JPGREP", os.path.join(top, "crates/jpgrep/out/jpgrep"))
        self.library = Library(os.environ["JPQ_LIBRARY"]) if "JPQ_LIBRARY" in os.environ else None
        self.room = tempfile.TemporaryDirectory()
        self.file = os.path.join(self.room.name, "collection")

    def __enter__(self):
        return self

    def __exit__(self, *_):
        self.room.cleanup()

    def run(self, program, *words, given=b""):
        return subprocess.run([program, *words], input=given, capture_output=True, timeout=60).stdout

    def write(self, case):
        with open(self.file, "wb") as file:
            file.write(collection(case))

    def scripted(self, case, with_indexes):
        """What jpq answers to the script, with indexes made in front and dropped again from what it answers."""
        words = ["--seq"] if case.is_sequence else []
        front = b"".join(command + b"\n" for command in INDEXES) if with_indexes else b""
        return self.run(self.jpq, self.file, *words, given=front + script(case))

    def filtered(self, case):
        """What jpgrep writes."""
        around = [f"-B{case.around[0]}", f"-A{case.around[1]}"]
        options = {"line": ["-n"], "values": ["-n", "-o", "-p"], "count": ["-c"], "around": ["-n", *around]}[case.shown]
        words = [b"-w=" + condition for condition in case.conditions]  # one that begins with a sign is no option so
        words += ["-v"] * case.is_inverted + ["--seq"] * case.is_sequence + [b"--each=" + case.each] * bool(case.each)
        return self.run(self.jpgrep, "-s", "-h", *options, *words, "-m", str(case.most), "-e", case.query, self.file)

    def differ(self, case):
        """Whether a program answers otherwise than the model."""
        self.write(case)
        answers, found = modelled(case)
        if self.scripted(case, False) != answers:
            return True
        if is_free_of_indexes(case) and not self.scripted(case, True).endswith(answers):
            return True
        if self.library and self.library.run(case) != answers:
            return True
        return found is not None and is_asked(case) and self.filtered(case) != found


def is_free_of_indexes(case):
    """Whether no command of a script speaks of indexes, so that others in front of it change nothing."""
    return not any(command.split(b" ")[0] in (b"index", b"drop", b"indexes") for command in case.commands)


def is_asked(case):
    """Whether jpgrep is asked so: rows of sequences have bytes of their own, an inverted question has no values, and nodes have no lines
    around them."""
    words, has_values = [case.each, case.query, *case.conditions], case.shown == "values" or case.each
    if case.is_sequence or case.is_inverted and has_values or case.shown == "around" and case.each:
        return False
    return not any(b"\0" in word for word in words)
