#!/usr/bin/env python3
"""The stack that the functions of target/staticlib/libwarnbox.a take: the frames of the compiled functions, added up along the longest chain of calls.

    tests/stack.py [ARCHIVE]    writes a line for each exported function, and fails if one takes more than include/warnbox.h says (WARNBOX_STACK)

No function calls itself or through a pointer, so the sum is a bound for every input. What memcpy and memset take is the C library's, and so is what a
dynamic linker takes that binds them at their first call.
"""
import os
import re
import subprocess
import sys

ROOT = os.path.join(os.path.dirname(os.path.abspath(__file__)), "..")
RED_ZONE = 128  # the bytes below its frame that a function which calls nothing may use
WORD = 8


def functions(archive):
    """Name -> (bytes of its frame, names that it calls or jumps to), from the disassembly with its relocations."""
    found, name, called = {}, None, False
    text = subprocess.run(["objdump", "-dr", "--no-show-raw-insn", archive], capture_output=True, text=True, check=True).stdout
    for line in text.splitlines():
        if called and "R_X86_64" not in line:
            sys.exit(f"{name} calls itself")  # every function has a section of its own, so a call to another has a relocation
        called = "\tcall " in line
        if head := re.match(r"[0-9a-f]+ <(.*)>:$", line):
            name = head[1]
            found[name] = [0, set()]
        elif "\tpush " in line:
            found[name][0] += WORD
        elif taken := re.search(r"\tsub +\$0x([0-9a-f]+),%rsp", line):
            found[name][0] += int(taken[1], 16)
        elif re.search(r"\t(sub|add|and|lea|mov) .*,%rsp", line) and not re.search(r"\t(add +\$|lea +-?0x[0-9a-f]+\(%rsp\),%rsp)", line):
            sys.exit(f"{name}: the stack pointer is set in a way that isn't known: {line.strip()}")
        elif target := re.search(r"R_X86_64_P(?:LT|C)32\t(?:\.text\.)?([\w:]+)-0x4$", line):
            found[name][1].add(target[1])  # a local function is named by its section; a constant's name is no function's
        elif re.search(r"\tcall +\*", line):
            sys.exit(f"{name}: a call through a pointer: {line.strip()}")
    return found


def depth(name, found, above=()):
    """The most stack that a call of a function takes, with its return address."""
    if name in above:
        sys.exit(f"{name} calls itself: {' > '.join(above)}")
    if name not in found:
        return WORD  # the C library's
    frame, called = found[name]
    return WORD + frame + max((depth(c, found, above + (name,)) for c in called), default=RED_ZONE)


def main():
    archive = sys.argv[1] if len(sys.argv) > 1 else os.path.join(ROOT, "target/staticlib/libwarnbox.a")
    header = open(os.path.join(ROOT, "include/warnbox.h")).read()
    said = int(re.search(r"#define WARNBOX_STACK (\d+)", header)[1])
    found = functions(archive)
    exported = [n for n in found if n.startswith("warnbox_") and "::" not in n]
    most = 0
    for name in sorted(exported):
        taken = depth(name, found)
        most = max(most, taken)
        print(f"{taken:6} {name}")
    print(f"{most} bytes at most; the header says {said}")
    return 0 if exported and most <= said else 1


if __name__ == "__main__":
    sys.exit(main())
