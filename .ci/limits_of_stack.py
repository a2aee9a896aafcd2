"""Asks the deepest queries that the limits allow with a stack of a megabyte, and compares what is answered with what is answered
where the stack has 64.

    limits_of_stack.py JPQ JPGREP FOLDER

FOLDER is for files. Each form of nesting is read with a fault innermost, checked, compiled and answered, on a flat line and on lines
that nest 512 deep. Three forms that take most of the stack are asked with less, so that a frame that grows is seen early.
"""
import os
import resource
import subprocess
import sys

PROGRAM, FILTER, FOLDER = [*sys.argv[1:], "", "", ""][:3]
KIB, SECONDS = 1024, 60
MOST, LEAST, AMPLE = 1024 * KIB, 960 * KIB, 64 * 1024 * KIB

# What is put around the innermost part, and how often: at most 512 brackets and parentheses, those around all of it included.
FORMS = {
    "filters": ("@[?%s]", 510),
    "alternatives": ("@||@&&@[?%s]", 510),
    "negations": ("@||@&&!@[?%s]", 510),
    "filters of the root's descendants": ("@||@&&$..*[?%s]", 510),
    "negated parentheses": ("@==1||!(%s)", 510),
    "parentheses": ("@||@&&(%s)", 510),
    "parentheses, negated after an and": ("@||@&&!(%s)", 510),
    "comparisons and descendants": ("@==1||@==1&&!@..*[?%s]", 510),
    "counts": ("@||@&&count(@[?%s])==1", 255),
    "lengths": ("@||@&&1==length(value(@[?%s]))", 170),
    "patterns": ('@||@&&match(value(@[?%s]),"a")', 170),
    "patterns from the root": ('@||@&&!match("a",value($[?%s]))', 170),
    "selectors around a filter": ("@||@&&!@[0,?%s,'a']", 510),
    "steps in front of a filter": ("@||@&&!@.a.b[?%s]", 510),
    "steps after a filter": ("@||@&&!@[?%s].a", 510),
    "descendants, to the end": ("@.z||@.*&&!@..[?%s]", 510),
    "the root's descendants, to the end": ("@.z||@.*&&!$..[?%s]", 510),
    "an index and a filter, to the end": ("@.z||@.*&&!@[5,?%s]", 510),
    "an index and a filter of descendants": ("@.z||@.*&&!@..[5,?%s]", 510),
    "slices, to the end": ("@.z||@.*&&!@[::-1,?%s]", 510),
    "counts, to the end": ("@.z||@.*&&count(@[?%s])==1", 255),
    "a negated comparison in parentheses": ("!(@.a==1&&(%s))", 255),
}
HIGHEST = ("filters", "filters of the root's descendants", "the root's descendants, to the end")


def nested(form, inner):
    """The innermost part with the form around it."""
    text, count = FORMS[form]
    before, after = text.split("%s")
    return before * count + inner + after * count


class Checks:
    passed = failed = 0

    def check(self, name, got, stated):
        if got == stated:
            self.passed += 1
            return
        self.failed += 1
        print(f"{name}: NOT AS STATED: {repr(got)[:200]} for {repr(stated)[:200]}")


def ended(words, stack):
    """The status, the rows and the messages of a run with a stack of some bytes."""
    limit = lambda: resource.setrlimit(resource.RLIMIT_STACK, (stack, stack))
    try:
        # the environment lies on the stack too
        how = {"stdin": subprocess.DEVNULL, "capture_output": True, "timeout": SECONDS, "env": {}, "preexec_fn": limit}
        run = subprocess.run(words, **how)
    except subprocess.TimeoutExpired:
        return "it did not end"
    return run.returncode, run.stdout, run.stderr


def questions(form, lines):
    """The runs of both programs that ask it."""
    condition = nested(form, "@")
    query, broken = f"$[?{condition}]", f"$[?{nested(form, '@@')}]"
    yield "a fault innermost", [FILTER, "--check", "-e", broken], 2
    yield "a fault innermost of jpq", [PROGRAM, lines["flat"], "-c", f"query {broken}"], 0
    yield "a check", [FILTER, "--check", "-e", query], 0
    yield "a check of a condition", [FILTER, "--check", "-w", condition], 0
    for name, path in lines.items():
        yield f"jpgrep on a {name} line", [FILTER, "-c", "-e", query, path], None
        yield f"a condition on a {name} line", [FILTER, "-c", "-w", condition, path], None
        commands = [f"query {query}", f"explain {query}", "index $[0]", f"query {query}", f"explain {query}"]
        yield f"jpq on a {name} line", [PROGRAM, path, *(word for it in commands for word in ("-c", it))], 0


def lines_of(folder):
    """A flat line, and lines 512 deep: of arrays in one another, with and without an element before the next."""
    deep = "1"
    for level in range(511):
        deep = f"[0,{deep}]" if level % 2 else f"[{deep}]"
    found = {}
    for name, text in (("flat", "1"), ("deep", "[" * 511 + "]" * 511), ("branched", deep)):
        found[name] = os.path.join(folder, f"stack-{name}")
        with open(found[name], "w", encoding="utf-8") as file:
            file.write(text + "\n")
    return found


def main():
    checks, lines = Checks(), lines_of(FOLDER)
    for form in FORMS:
        for name, words, status in questions(form, lines):
            stated = ended(words, AMPLE)
            if status is not None:
                checks.check(f"{form}, {name}: status", stated[0], status)
            checks.check(f"{form}, {name}, with 1 MB of stack", ended(words, MOST), stated)
            if form in HIGHEST:
                checks.check(f"{form}, {name}, with {LEAST // KIB} KiB of stack", ended(words, LEAST), stated)
    print(f"limits of the stack: {checks.passed} passed, {checks.failed} failed, 0 skipped")
    return 1 if checks.failed else 0


def write_script(folder):
    """For the library: a line that nests, and a script that asks all of it."""
    lines_of(folder)
    with open(os.path.join(folder, "stack-script"), "w", encoding="utf-8") as file:
        file.writelines(f"{word} $[?{nested(form, '@')}]\n" for form in FORMS for word in ("query", "explain"))


if __name__ == "__main__":
    sys.exit(main())
