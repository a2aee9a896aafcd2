"""Runs each kept example through the program, and through the library by one call and by one for each line of the script, and tells
whether all write the same and end with the same status.

    library_examples.py ASKS PROGRAM FOLDER EXAMPLES..
"""
import os
import re
import subprocess
import sys

ASKS, PROGRAM, FOLDER, *EXAMPLES = sys.argv[1:]


def spelled(line):
    """The bytes of a line of an example: see the head of its file."""
    line, ends = (line[:-len("«no line feed»")], b"") if line.endswith("«no line feed»") else (line, b"\n")
    parts = re.split("«([0-9A-F ]+)»", line)
    return b"".join(bytes.fromhex(part) if n % 2 else part.encode() for n, part in enumerate(parts)) + ends


def examples(path):
    """The collection, the script and the framing of each example that the program can be asked."""
    for text in re.split(r"^== .*\n", open(path, encoding="utf-8").read(), flags=re.MULTILINE)[1:]:
        lines = text.split("\n")
        if any(line.startswith(("most:", "script most:")) for line in lines):
            continue
        given = {mark: b"".join(spelled(line[2:]) for line in lines if line[:2] == mark + " " or line == mark) for mark in "|>"}
        yield given["|"], given[">"], any(line.strip() == "framing: sequence" for line in lines)


def ran(*words):
    done = subprocess.run(words, capture_output=True)
    return done.returncode, done.stdout


passed = wrong = 0
os.chdir(FOLDER)
for path in EXAMPLES:
    for collection, script, is_sequence in examples(path):
        for name, content in (("collection", collection), ("script", script)):
            with open(name, "wb") as file:
                file.write(content)
        wanted = ran(PROGRAM, "collection", "--script", "script", *["--seq"] * is_sequence)
        for count in "01":
            if ran(ASKS, "collection", "script", str(int(is_sequence)), count) == wanted:
                passed += 1
            else:
                wrong += 1
                print(f"library: an example of {os.path.basename(path)}: {script[:200]!r}")
print(f"library, examples: {passed} passed, {wrong} failed, 0 skipped")
sys.exit(wrong > 0 or passed < 300)
