"""Tries that a module is changed for WebAssembly as docs/DECISIONS.md says, that code for x86-64 which is not known stops it, and
that custom sections are left out, and no others."""
import pathlib
import sys

sys.path.insert(0, str(pathlib.Path(__file__).resolve().parent.parent / "page"))
from module import retarget, without_custom_sections  # noqa: E402

LOOK_UP = "%r = call <16 x i8> @llvm.x86.ssse3.pshuf.b.128(<16 x i8> <i8 1, i8 2>, <16 x i8> %s)"
SWIZZLE = "%r = call <16 x i8> @llvm.wasm.swizzle(<16 x i8> <i8 1, i8 2>, <16 x i8> %s)"
KNOWN = f"""target triple = "x86_64-unknown-linux-gnu"
define noundef i32 @jpq_left(ptr noundef %a) #0 {{
{LOOK_UP}
}}
define internal i32 @"jp_c::left"(ptr %a) #0 {{
}}
attributes #0 = {{ nounwind "probe-stack"="inline-asm" "target-cpu"="x86-64-v2" }}
"""
FRONT = b"\0asm\1\0\0\0"
MEMORY = bytes([5, 4, 1, 5, 1, 2])
NAMES = bytes([0, 0x85, 1, 4]) + b"name" + bytes(128)
FOREIGN = ["%m = call i32 @llvm.x86.sse2.pmovmskb.128(<16 x i8> %v)", 'call void asm sideeffect "nop", ""()']


def main():
    text, names = retarget(KNOWN)
    assert names == ["jpq_left"] and SWIZZLE in text and "x86" not in text, text
    assert 'define internal i32 @"jp_c::left"(ptr %a) #0 {' in text and text.count("wasm-export-name") == 1, text
    assert without_custom_sections(FRONT + NAMES + MEMORY + NAMES) == FRONT + MEMORY
    for line in FOREIGN:
        try:
            retarget(KNOWN + line)
        except SystemExit:
            continue
        sys.exit(f"page: NOT AS STATED: it does not stop at {line}")


main()
