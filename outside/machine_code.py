"""The functions of an archive, from its machine code as objdump prints it."""

import re
import subprocess
import sys


def functions(archive):
    """The lines of each function: its instructions, and below them what the linker is to put in."""
    words = ["objdump", "--disassemble", "--reloc", "--no-show-raw-insn", archive]
    found, name = {}, None
    for line in subprocess.run(words, capture_output=True, text=True, check=True).stdout.splitlines():
        if head := re.match(r"[0-9a-f]+ <(.+)>:$", line):
            name = head[1]
            found[name] = []
        elif name:
            found[name].append(line)
    return found


def callees(name, lines):
    """The functions that a function calls. Each has a section of its own, so that a jump to another one is the linker's too."""
    called = set()
    for line in lines:
        if re.search(r"\tcall +\*|R_X86_64_\w*GOT", line):
            sys.exit(f"{name} calls by a pointer")
        if callee := re.search(r"\tcall +[0-9a-f]+ <([^+>]+)>$|R_X86_64_PLT32\t(?:\.text\.)?(\S+)-0x4$", line):
            called.add(callee[1] or callee[2])
    return called
