#!/usr/bin/env python3
"""Makes the table in docs/PROOFS.md of the functions that have no `ensures`, so that any body that is safe and ends meets their contract.

    tools/clauses.py             puts the table into the document
    tools/clauses.py --compare   changes nothing, and says whether the document differs from it

The table stands between the lines `<!-- made: clauses -->` and `<!-- end -->`. Methods of a trait are left out, since the clauses of
the trait hold of them, and so are tests.
"""
import pathlib
import re
import sys

TOP = pathlib.Path(__file__).resolve().parent.parent
DOCUMENT = TOP / "docs" / "PROOFS.md"
START, END = "<!-- made: clauses -->\n", "<!-- end -->\n"
FUNCTION = re.compile(r"\s*(pub(?:\([a-z ]+\))? )?(?:const )?(?:unsafe )?(?:extern \"C\" )?fn (\w+)")
CLAUSE = re.compile(r"(requires|ensures|ghost)\b")


def has_ensures(lines, number):
    """Whether the function that begins at a line has an `ensures`, before its body begins."""
    for line in lines[number:]:
        if line.strip().startswith("ensures"):
            return True
        begins = line.rstrip().endswith(("{", "{}")) and not CLAUSE.match(line.strip())
        if begins or line.strip() == "{":
            return False
    return False


def functions(path):
    """The functions of a file without an `ensures`: the name, and whether it is public."""
    lines = path.read_text().split("#[cfg(test)]")[0].splitlines()
    of_trait = False
    for number, line in enumerate(lines):
        if line.startswith(("impl", "trait", "pub trait")):
            of_trait = " for " in line or "trait" in line.split()[:2]
        elif line.startswith("}"):
            of_trait = False
        found = FUNCTION.match(line)
        if found and not of_trait and not has_ensures(lines, number):
            yield found[2], (found[1] or "").strip() == "pub"


def named(names):
    few = ", ".join(f"`{name}`" for name in sorted(set(names)))
    return f"{len(names)}: {few}" if len(names) <= 30 else str(len(names))


def table():
    rows = ["| Crate | Private functions | Public functions |\n", "|---|---|---|\n"]
    for crate in sorted((TOP / "crates").iterdir()):
        if crate.name.startswith(("test_", "example_")):
            continue
        found = [it for path in sorted(crate.glob("src/**/*.rt")) if "tests" not in path.parts and path.name != "tests.rt" for it in functions(path)]
        cells = [named([name for name, public in found if public == wanted]) if any(public == wanted for _, public in found) else "" for wanted in (False, True)]
        if found:
            rows.append(f"| `{crate.name}` | {cells[0]} | {cells[1]} |\n")
    return "".join(rows)


def main(words):
    text = DOCUMENT.read_text()
    before, rest = text.split(START)
    old, after = rest.split(END, 1)
    made = table()
    if words == ["--compare"]:
        wrong = old != made
        if wrong:
            print("docs/PROOFS.md: the functions without a clause are others: tools/clauses.py makes the table anew")
        print(f"clauses: {0 if wrong else 1} passed, {int(wrong)} failed, 0 skipped")
        return int(wrong)
    DOCUMENT.write_text(before + START + made + END + after)
    return 0


if __name__ == "__main__":
    sys.exit(main(sys.argv[1:]))
