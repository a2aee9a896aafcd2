"""The proved LLVM module of the C library, and how it becomes one of WebAssembly.

The kit compiles a proved crate by an LLVM module for x86-64, which its clang reads. Here a clang stands in that one's place
that keeps the module; then it is changed in the few lines that `retarget` names, and the kit's clang compiles it once more.
"""
import os
import pathlib
import re
import shlex
import subprocess
import sys

KIT = os.path.dirname(subprocess.run(["rt", "doc"], capture_output=True, text=True, check=True).stdout.strip())
HERE = os.path.dirname(os.path.realpath(__file__))
CLANG = f"{KIT}/toolchain/bin/clang"
TRIPLE = "wasm64-unknown-unknown"
LAYOUT = "e-m:e-p:64:64-p10:8:8-p20:8:8-i64:64-i128:128-n32:64-S128-ni:1:10:20"
# The processor and the flags are those of the kit for wasm64, and vectors of 128 bits.
TARGET = [f"--target={TRIPLE}", "-mcpu=lime1", "-msimd128", "-mbulk-memory"]
FLAGS = """-mllvm -expand-div-rem-bits=64 -mllvm -expand-fp-convert-bits=64 -ffunction-sections -fdata-sections
    -mllvm -trap-unreachable --no-default-config -no-canonical-prefixes -c""".split()
STACK = 8 << 20  # bytes
TEXT = {"encoding": "utf-8", "errors": "surrogateescape"}
VECTOR = r"<16 x i8> (?:noundef )?(<.*?>|%[\w.]+|zeroinitializer)"


def keeping_toolchain(room, kept):
    """A folder for `rattle build --toolchain` whose clang copies the LLVM module that it is given to the file `kept`."""
    tools = f"{room}/toolchain"
    os.makedirs(f"{tools}/bin")
    os.symlink(f"{KIT}/toolchain/lib", f"{tools}/lib")
    for name in ("ld.lld", "llvm-ar", "rattle-x64"):
        os.symlink(f"{KIT}/toolchain/bin/{name}", f"{tools}/bin/{name}")
    with open(f"{tools}/bin/clang", "w", encoding="utf-8") as file:
        keep = f'case "$*" in *module.bc*) cp module.bc {shlex.quote(kept)};; esac'
        file.write(f'#!/bin/sh\n{keep}\nexec {shlex.quote(CLANG)} "$@"\n')
    os.chmod(f"{tools}/bin/clang", 0o755)
    return tools


def replace_lookup(text):
    """A look-up of 16 bytes by SSSE3 becomes the swizzle of WebAssembly: the same for indexes below 16, and all are nibbles."""
    call = rf"call <16 x i8> @llvm\.x86\.ssse3\.pshuf\.b\.128\({VECTOR}, {VECTOR}\)"
    text = re.sub(call, r"call <16 x i8> @llvm.wasm.swizzle(<16 x i8> \1, <16 x i8> \2)", text)
    return text.replace("declare <16 x i8> @llvm.x86.ssse3.pshuf.b.128(", "declare <16 x i8> @llvm.wasm.swizzle(")


def refuse_foreign(text):
    """Stops at code that means x86-64 alone: an instruction of it that is called, or assembly."""
    left = sorted(set(re.findall(r"@llvm\.x86\.[\w.]+", text)))
    if re.search(r"\basm\b", re.sub(r'c?"(?:[^"\\]|\\.)*"', "", text)):
        left.append("assembly")
    if left:
        sys.exit(f"page: the module has code for x86-64 alone, for which nothing is known here: {', '.join(left)}")


def export_calls(text):
    """Has the module export each call of the library by its name."""
    names = []

    def export(found):
        names.append(found[2])
        return f"define {found[1]}@{found[2]}({found[3]}) #{90000 + len(names)} {{"

    text = re.sub(r"^define (?!internal)(.*?)@(jpq_\w+)\((.*)\) #\d+ \{", export, text, flags=re.M)
    lines = [f'attributes #{90000 + at} = {{ nounwind "wasm-export-name"="{name}" }}' for at, name in enumerate(names, 1)]
    return text + "\n" + "\n".join(lines) + "\n", names


def retarget(text):
    """The module for wasm64, and the names of its calls. Each change is one that docs/DECISIONS.md names."""
    text = re.sub(r'^target datalayout = ".*"', f'target datalayout = "{LAYOUT}"', text, flags=re.M)
    text = re.sub(r'^target triple = ".*"', f'target triple = "{TRIPLE}"', text, flags=re.M)
    text = re.sub(r'"(probe-stack|stack-probe-size|target-cpu|target-features)"="[^"]*"', "", text)
    text = replace_lookup(text)
    refuse_foreign(text)
    return export_calls(text)


def read_number(module, at):
    """An unsigned number of a module in LEB128 (WebAssembly core specification, 5.2.2), and where it ends."""
    number = shift = 0
    while module[at] & 128:
        number |= (module[at] & 127) << shift
        shift, at = shift + 7, at + 1
    return number | module[at] << shift, at + 1


def without_custom_sections(module):
    """The module without its custom sections, names of functions mostly, which mean nothing to an engine (5.5.3)."""
    kept, at = module[:8], 8
    while at < len(module):
        size, start = read_number(module, at + 1)
        if module[at] != 0:
            kept += module[at : start + size]
        at = start + size
    return kept


def wanted_calls(header):
    """The calls that the header of the library declares, and those that the worker makes."""
    with open(header, encoding="utf-8") as file:
        declared = re.findall(r"^[a-z]\w* (jpq_\w+)\(", file.read(), flags=re.M)
    scripts = "".join(path.read_text(encoding="utf-8") for path in pathlib.Path(HERE).glob("*.js"))
    return {*declared, *re.findall(r"\bengine\.(jpq_\w+)\(", scripts)}


def make_wasm(module, header, room, out):
    """Compiles the LLVM module `module` for wasm64 with the heap below it, and links the WebAssembly module `out`."""
    read = ["--target=x86_64-unknown-linux-gnu", "-S", "-emit-llvm", "-x", "ir", "-O1", "-Xclang", "-disable-llvm-passes"]
    subprocess.run([CLANG, *read, module, "-o", f"{room}/module.ll"], check=True, stderr=subprocess.DEVNULL)
    with open(f"{room}/module.ll", **TEXT) as file:
        text, names = retarget(file.read())
    missing = wanted_calls(header) - {*names}
    if missing:
        sys.exit(f"page: the module has no calls {' '.join(sorted(missing))}")
    with open(f"{room}/page.ll", "w", **TEXT) as file:
        file.write(text)
    subprocess.run([CLANG, *TARGET, *FLAGS, "-x", "ir", f"{room}/page.ll", "-O3", "-o", f"{room}/module.o"], check=True)
    plain = ["-O2", "-Wall", "-Wextra", "-Werror", "-ffreestanding", "-fno-builtin", "-nostdinc", "-x", "c"]
    subprocess.run([CLANG, *TARGET, *FLAGS, *plain, f"{HERE}/heap.c", "-o", f"{room}/heap.o"], check=True)
    subprocess.run([f"{KIT}/toolchain/bin/llvm-ar", "rcsD", f"{room}/page.a", f"{room}/module.o", f"{room}/heap.o"], check=True)
    link = [f"{KIT}/bin/rattle-link", "--target", TRIPLE, "--toolchain", f"{KIT}/toolchain", "--stack", str(STACK), "-o", out]
    linked = subprocess.run([*link, f"{room}/page.a"], capture_output=True, text=True)
    if linked.returncode or "import" in linked.stderr:
        sys.exit(f"page: not linked, or with imports: {linked.stderr}")
    module = pathlib.Path(out)
    module.write_bytes(without_custom_sections(module.read_bytes()))
