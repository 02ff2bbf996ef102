#!/usr/bin/env python3
"""Looks in compiled code for a fault of the compiler that no proof covers.

A function whose frame is longer than 32 KB touches its pages one by one, in a loop that counts in %r11. Where the compiler lays the frame out
only after the checks at the function's start, and keeps an argument in %r11 until then, that loop overwrites the argument: a proved program
then reads outside of what it was lent. So the loop may stand at a function's very start alone.

usage: prologues.py FILE..      (archives and object files; needs objdump)
"""
import re
import subprocess
import sys

NAME = re.compile(r"^[0-9a-f]+ <(.+)>:$")
INSTRUCTION = re.compile(r"^\s+[0-9a-f]+:\s+(.+?)\s*$")
# what saves registers and the frame's address at a function's start
SAVES = re.compile(r"^(endbr64|push\s+%r\w+|mov\s+%rsp,%rbp)$")
PROBES = re.compile(r"^mov\s+%rsp,%r11$")


def functions(disassembly):
    """The functions of a disassembly: each name with its instructions in their order."""
    found = []
    for line in disassembly.split("\n"):
        if name := NAME.match(line):
            found.append((name[1], []))
        elif found and (instruction := INSTRUCTION.match(line)):
            found[-1][1].append(instruction[1])
    return found


def late(instructions):
    """Whether pages are touched by a loop elsewhere than at the start."""
    started = False
    for instruction in instructions:
        if PROBES.match(instruction):
            if started:
                return True
        elif not SAVES.match(instruction):
            started = True
    return False


def faults(disassembly):
    """The functions that may lose an argument."""
    return [name for name, instructions in functions(disassembly) if late(instructions)]


def main(files):
    if not files:
        sys.exit(__doc__)
    count, bad = 0, []
    for file in files:
        done = subprocess.run(["objdump", "-d", "--no-show-raw-insn", file], capture_output=True, text=True, check=True)
        count += len(functions(done.stdout))
        bad += [f"{file}: {name} lays out its frame after its start, by a loop that overwrites %r11" for name in faults(done.stdout)]
    if count == 0:
        bad.append("no function was found")
    print("\n".join(bad + [f"{count} compiled functions, {len(bad)} of which may lose an argument"]))
    sys.exit(1 if bad else 0)


if __name__ == "__main__":
    main(sys.argv[1:])
