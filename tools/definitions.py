#!/usr/bin/env python3
"""Makes the tables of docs/DEFINITIONS.md from the comments of the definitions and of the laws.

    tools/definitions.py             puts the tables into the document
    tools/definitions.py --compare   changes nothing, and says where the document differs from them

In the document a line `<!-- made: NAME -->` stands before some tables and `<!-- end -->` after them; all else is written
by hand. There is a table for each file, in the order in which `Lib.antt` or `lib.rt` names them, and in it a row for each
definition: its name, the sections that its comment cites, and the words of the comment. A definition without a comment
shares the row of the one before it.
"""
import difflib
import pathlib
import re
import sys

TOP = pathlib.Path(__file__).resolve().parent.parent
CRATES = TOP / "crates"
DOCUMENT = TOP / "docs" / "DEFINITIONS.md"

# `abbrev pub NAME : ..`, `pub data NAME ..`, `pub record NAME ..`; and `pub NAME : ..` right within a block of
# `abbrev mutual`: elsewhere that is a field.
DEFINITION = re.compile(r"(?:(?:abbrev|unfoldable) pub|pub (?:data|record)) ([^\s:(]+)")
IN_BLOCK = re.compile(r"pub ([^\s:(]+) :")
BLOCK = re.compile(r"(?:(?:abbrev )?mutual|module .* where)$")
LAW = re.compile(r"pub fn (\w+)")
MODULE = re.compile(r"^pub mod (\w+)", re.M)
USED = re.compile(r"use Rattle\.jp_laws\.specs\.[\w.]+\.\{([^}]*)\}")

PLACE = r"(?:[A-Z]\.)?\d+(?:\.\d+)*|[A-Z]\b"
PLACES = rf"(?:sections?|appendix) (?:{PLACE})(?:(?:, | and | to | and appendix )(?:{PLACE}))*"
CITED = re.compile(rf"(RFC \d+)(?:, ({PLACES}))?|({PLACES})")
# What stands in parentheses and cites goes to its own column, and the rest stays.
ASIDE = re.compile(r"\s?\(((?:RFC \d|sections? |appendix |profile|Unicode)[^()]*)\)")
CODE = re.compile(r"(`[^`]*`)")


def without_word(text):
    return re.sub(r"(?:sections?|appendix) ", "", text)


def citations(text, of=""):
    """The sections that a text cites, each with its RFC, which is `of` where none is named before it."""
    found = []
    for rfc, places, alone in CITED.findall(text):
        of = rfc or of
        found.append(", ".join(x for x in [of, without_word(places or alone)] if x))
    return found


def split(comment, of):
    """What a comment cites, and its words without what only cites."""
    of = of or "".join(re.findall(r"RFC \d+", comment)[:1])
    found = []
    for aside in ASIDE.findall(comment):
        for part in aside.split("; "):
            found.append(without_word(f"{of}, {part}" if re.match("section|appendix", part) else part))
    words = ASIDE.sub("", comment)
    found += [x for x in citations(words, of) if "," in x]
    return "; ".join(dict.fromkeys(found)), words


def cell(text):
    """A text as Markdown wants it in a table: outside of code, no sign of it is Markdown's."""
    parts = CODE.split(text)
    return "".join(part if CODE.match(part) else re.sub(r"([*<\\])", r"\\\1", part) for part in parts).replace("|", r"\|")


def paragraph(lines):
    return " ".join(lines).strip()


def commented(path):
    """The head of a file of definitions, and each of them with the comment above it and the head of its part of the file."""
    head, part, comment, above, found, inside, is_head = [], "", [], [], [], None, True
    for line in path.read_text().splitlines():
        text = line.strip()
        indent = len(line) - len(line.lstrip())
        if text.startswith("-- ----"):
            part = text[7:].strip()
        elif text.startswith("--"):
            (head if is_head else comment).append(text[2:].strip())
        else:
            is_head = False
            if BLOCK.match(text):
                above, inside = comment, indent + 2 if text == "abbrev mutual" else None
            elif text:
                inside = None if inside and indent < inside else inside
                definition = DEFINITION.match(text) or (indent == inside and IN_BLOCK.match(text))
                if definition:
                    found.append((definition[1], paragraph(comment or above), part))
                    above = []
            comment = []
    return paragraph(head), found


def laws(path):
    """The head of a file of laws, and each law with the first paragraph of its comment."""
    head, comment, found = [], [], []
    for line in path.read_text().splitlines():
        law = LAW.match(line)
        if line.startswith("//!"):
            head.append(line[3:].strip())
        elif line.startswith("///"):
            comment.append(line[3:].strip())
        elif law:
            first = comment[: comment.index("")] if "" in comment else comment
            found.append((law[1], paragraph(first), ""))
            comment = []
    return paragraph(head), found


def table(name, head, definitions, title, named):
    """The lines of a file's table, below its name and its head; where names are given, with the rows of those alone."""
    of = "".join(re.findall(r"RFC \d+", head)[:1])
    whole = "; ".join(dict.fromkeys(citations(head) + re.findall(r"\bprofile\b", head)))
    rows = []
    for definition, comment, part in definitions:
        if comment or not rows:
            sections, words = split(comment or head, of)
            rows.append([[], sections or "; ".join(citations(part, of)) or whole, words])
        rows[-1][0].append(definition)
    rows = [row for row in rows if named is None or named.intersection(row[0])]
    if not rows:
        return []
    lines = [f"### `{name}`", "", cell(head), "", f"| {title} | Standard | In words |", "|---|---|---|"]
    for names, sections, words in rows:
        lines.append(f"| {', '.join(f'`{x}`' for x in names)} | {sections} | {cell(words)} |")
    return lines + [""]


def files(path):
    """The files that a `Lib.antt` or `lib.rt` names, and those that they name."""
    for module in MODULE.findall(path.read_text()):
        folder = path.parent if path.stem.lower() == "lib" else path.with_suffix("")
        yield folder / f"{module}{path.suffix}"
        yield from files(folder / f"{module}{path.suffix}")


def tables(paths, read, title, named=None):
    made = [""]
    for path in paths:
        head, definitions = read(path)
        made += table(str(path.relative_to(CRATES)), head, definitions, title, named)
    return made


def made_tables():
    law_files = list(files(CRATES / "jp_laws/src/lib.rt"))
    used = [names for path in law_files for names in USED.findall(path.read_text())]
    return {
        "definitions": tables(files(CRATES / "jp_model/specs/Lib.antt"), commented, "Name"),
        "canonical": tables([CRATES / f"jp_canon/specs/{name}.antt" for name in ("Canonical", "Layout")], commented, "Name"),
        "cut": tables([*(CRATES / f"jp_cut/specs/{name}.antt" for name in ("Machine", "Cuts")), *files(CRATES / "jp_cut_laws/specs/Lib.antt")], commented, "Name"),
        "context": tables([CRATES / f"jp_context/specs/{name}.antt" for name in ("Told", "Groups")], commented, "Name"),
        "colours": tables([*files(CRATES / "jp_paint/specs/Lib.antt"), *(CRATES / f"{name}/specs/Colours.antt" for name in ("jp_context", "jp_grep"))], commented, "Name"),
        "laws": tables([*law_files, *sorted(CRATES.glob("*/src/laws.rt"))], laws, "Law"),
        "words": tables(files(CRATES / "jp_laws/specs/Lib.antt"), commented, "Name", set(re.findall(r"\w+", " ".join(used)))),
    }


def differences(old, made):
    """The lines of the document that are not made, after a minus, and those that are made and not in it, after a plus."""
    return [line for line in list(difflib.unified_diff(old, made, n=0))[2:] if line[0] in "-+"]


def main(words):
    if words not in ([], ["--compare"]):
        print(__doc__, file=sys.stderr)
        return 2
    text = DOCUMENT.read_text()
    passed, differing = 0, []
    for name, made in made_tables().items():
        start, end = f"<!-- made: {name} -->\n", "<!-- end -->\n"
        if start not in text or end not in text.split(start)[1]:
            print(f"docs/DEFINITIONS.md has no line {start.strip()}, or no {end.strip()} after it")
            print("definitions: 0 passed, 1 failed, 0 skipped")
            return 1
        before, rest = text.split(start)
        old, after = rest.split(end, 1)
        text = before + start + "".join(f"{line}\n" for line in made) + end + after
        found = differences(old.splitlines(), made)
        passed += sum(line.startswith("| `") for line in made) - sum(line.startswith("+| `") for line in found)
        differing += found
    if not words:
        DOCUMENT.write_text(text)
        return 0
    for line in differing:
        print(f"{line[0]} {'docs/DEFINITIONS.md' if line[0] == '-' else 'the comments'}: {line[1:]}")
    if differing:
        print("tools/definitions.py makes the tables anew")
    print(f"definitions: {passed} passed, {len(differing)} failed, 0 skipped")
    return 1 if differing or not passed else 0


if __name__ == "__main__":
    sys.exit(main(sys.argv[1:]))
