"""Runs a program over the C library with each growth refused in turn, and says whether every run ended as stated.

    library.py ASKS REFUSER FOLDER

Each command is a call of its own, or the first three are run by jpq_run and the others by one call. A run ends with status 0 and
the answers of all commands, at most one of them `error: memory`; or with 16 and the answers of some first ones, the last of
which may be cut.
"""
import os
import subprocess
import sys

ASKS, REFUSER, FOLDER = sys.argv[1:]
LINES = b"".join(b'{"n":%d,"s":"%s","o":{"a":[%d]}}\n' % (n, b"x" * n, n) for n in range(60)) + b"x\n\n"
COMMANDS = [b"check", b"query $..a[0]", b"query $[?$.n == 4]", b"query $[?search(@.s,'xx') && match(@.s,'x{3,9}')].n", b"query $", b"check"]


def run(refused, told, calls):
    environment = {**os.environ, "LD_PRELOAD": REFUSER, "REFUSE": str(refused), "TOLD": str(told)}
    return subprocess.run([ASKS, "lines", "commands", "0", calls], env=environment, capture_output=True, pass_fds=(told,))


def answers(commands, calls="1"):
    with open("commands", "wb") as file:
        file.write(b"".join(command + b"\n" for command in commands))
    reading, writing = os.pipe()
    done = run(0, writing, calls)
    os.close(writing)
    with os.fdopen(reading) as told:
        return done.stdout, int(told.read())


os.chdir(FOLDER)
with open("lines", "wb") as file:
    file.write(LINES)
each = [answers([command])[0] for command in COMMANDS]
starved = [b"".join(each[:n] + [b"error: memory\n"] + each[n + 1:]) for n in range(len(each))]
wrong = 0
for calls in "1", "-3":
    whole, growths = answers(COMMANDS, calls)
    assert whole == b"".join(each) and growths > 20, growths
    for refused in range(1, growths + 1):
        with open(os.devnull, "w") as nothing:
            done = run(refused, nothing.fileno(), calls)
        fine = done.stdout in [whole, *starved] if done.returncode == 0 else done.returncode == 16 and whole.startswith(done.stdout)
        if not fine:
            wrong += 1
            print(f"growth {refused} refused, by {calls} lines: status {done.returncode}, {done.stdout[-200:]!r}")
    print(f"{growths} growths, by {calls} lines")
sys.exit(wrong > 0)
