"""The page as one file: the parts of this folder, the WebAssembly module and the example log."""
import base64
import gzip
import hashlib
import pathlib
import re

WORKER = ("engine.js", "answer.js", "worker.js")
SCRIPTS = ("words.js", "help.js", "scroll.js", "view.js", "page.js", "listen.js")


def packed(data):
    return base64.b64encode(gzip.compress(data, 9, mtime=0)).decode()


PACKED = re.compile(r'(<script type="text/plain" id="\w+">)([^<]*)(?=</script>)')


def unpacked(sheet):
    """The text of a page with what is packed in it unpacked, so that pages compare whoever packed them; and its WebAssembly module."""
    with open(sheet, encoding="utf-8") as file:
        page = file.read()
    parts = {head: gzip.decompress(base64.b64decode(body)) for head, body in PACKED.findall(page)}
    wasm = next(body for head, body in parts.items() if 'id="wasm"' in head)
    return PACKED.sub(lambda found: found[1] + digest(parts[found[1]]), page), wasm


def is_made_of(top, sheet, out):
    """Whether a page is the one that the files of the repository make with the engine in it; it is made once more in the file `out`."""
    made, wasm = unpacked(sheet)
    pathlib.Path(f"{out}.wasm").write_bytes(wasm)
    make_sheet(top, f"{out}.wasm", out)
    return unpacked(out)[0] == made


def digest(data):
    return f"'sha256-{base64.b64encode(hashlib.sha256(data).digest()).decode()}'"


def make_sheet(top, wasm, out):
    """Writes the page to the file `out`, and answers how many bytes it has. Only its own script and style may run in it."""

    def read(*names):
        return "".join(pathlib.Path(top, "page", name).read_text(encoding="utf-8") for name in names)

    script, style = f"'use strict';\n{read(*SCRIPTS)}", read("page.css")
    worker, example = f"'use strict';\n{read(*WORKER)}", pathlib.Path(top, "examples/log.jsonl").read_bytes()
    parts = {"STYLE": style, "SCRIPT": script, "ENGINE": packed(worker.encode())}
    parts |= {"WASM": packed(pathlib.Path(wasm).read_bytes()), "EXAMPLE": packed(example)}
    parts |= {"SCRIPT_DIGEST": digest(script.encode()), "STYLE_DIGEST": digest(style.encode())}
    page = re.sub(r"@@(\w+)@@", lambda found: parts[found[1]], read("page.html")).encode()
    pathlib.Path(out).write_bytes(page)
    return len(page)
