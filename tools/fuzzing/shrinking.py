"""Makes a case small that two answer otherwise, and prints it as a worked example."""

import dataclasses

from .comparing import modelled


def smaller(case):
    """Cases with something left out of one."""
    for field in ("commands", "conditions", "lines"):
        parts = getattr(case, field)
        for at in range(len(parts)):
            yield dataclasses.replace(case, **{field: parts[:at] + parts[at + 1:]})
        for at, part in enumerate(parts):
            for shorter in cuts(part):
                yield dataclasses.replace(case, **{field: parts[:at] + (shorter,) + parts[at + 1:]})
    for field in ("each", "query"):
        for shorter in cuts(getattr(case, field)):
            yield dataclasses.replace(case, **{field: shorter})


def cuts(text):
    """A text with a run of its bytes left out, the longest runs first."""
    length = len(text) // 2
    while length:
        for at in range(0, len(text) - length + 1, max(1, length // 2)):
            yield text[:at] + text[at + length:]
        length //= 2


def smallest(case, differ):
    """A case from which nothing can be left out."""
    for candidate in smaller(case):
        if differ(candidate):
            return smallest(candidate, differ)
    return case


def as_example(case, programs):
    """The case as a worked example: the collection, the script and what has to be answered, then what jpgrep has to write."""
    answers, found = modelled(case)
    parts = ["== found by tools/fuzz" + (" (a sequence)" if case.is_sequence else "")]
    parts += [f"| {shown(line)}" for line in case.lines] + [f"> {shown(command)}" for command in case.commands]
    parts += [f"< {shown(line)}" for line in answers.split(b"\n")[:-1]]
    if found is not None:
        conditions = " ".join(f"-w {shown(condition)}" for condition in case.conditions)
        each = f" --each {shown(case.each)}" if case.each else ""
        lines = " %d before and %d after" % case.around if case.shown == "around" else ""
        how = f"{case.shown}{lines}{', inverted' if case.is_inverted else ''}, at most {case.most}"
        parts += [f"$ jpgrep ({how}){each} {conditions} -e {shown(case.query)}"]
        parts += [f"< {shown(line)}" for line in found.split(b"\n")[:-1]]
    programs.write(case)
    parts += ["jpq answered:", shown(programs.scripted(case, False))]
    return "\n".join(parts)


def shown(text):
    """Bytes as an example spells them."""
    try:
        return text.decode().translate({code: f"«{code:02X}»" for code in range(32) if code != 10})
    except UnicodeDecodeError:
        return "".join(chr(byte) if 31 < byte < 127 else f"«{byte:02X}»" for byte in text)
