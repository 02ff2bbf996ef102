#!/usr/bin/env python3
"""Runs the commands of the pages, and compares what they print with what the pages show.

A command is a line that begins with `$ ` in an indented or fenced block of README.md or docs/*.md; a line that ends with `\\` goes on in the next. The
lines below it, up to the next command or the end of the block, are what it prints; `..` or `...` on a line of its own stands for lines that are
left out. Where nothing is shown, nothing is compared.

All commands run in one shell, in the order of the pages: README first, then docs/ by name. Each begins at the root and ends there, has the status 0,
and leaves nothing behind that git would show. The gate itself, .ci/run, is not run.

With --section it runs nothing, and prints the lines of the ```sh blocks below one heading of a page: .ci/install runs those of docs/C.md.

usage: commands.py ROOT [PAGE..]
       commands.py --section PAGE HEADING
"""
import dataclasses
import pathlib
import re
import subprocess
import sys
import time

GATE = re.compile(r"\.ci/run\b")
LEFT_OUT = ("..", "...")
LONGEST = 900  # seconds, for all commands together


@dataclasses.dataclass
class Command:
    page: str
    line: int
    text: str
    shown: list  # the lines that the page shows below it

    def place(self):
        return f"{self.page}:{self.line}: {self.text.splitlines()[0]}"


def blocks(text):
    """The blocks of a page: for each the number of its first line, and its lines without their indentation."""
    found, lines, at = [], text.splitlines(), 0
    while at < len(lines):
        fence = re.match(r"( *)```", lines[at])
        if fence:
            end = next(place for place in range(at + 1, len(lines) + 1) if place == len(lines) or lines[place].strip() == "```")
            found.append((at + 2, [line[len(fence[1]):] for line in lines[at + 1:end]]))
            at = end + 1
        elif lines[at].startswith("    ") and (at == 0 or not lines[at - 1].strip()):
            end = at
            while end < len(lines) and (lines[end].startswith("    ") or (not lines[end].strip() and any(line.startswith("    ") for line in lines[end + 1:end + 2]))):
                end += 1
            found.append((at + 1, [line[4:] for line in lines[at:end]]))
            at = end
        else:
            at += 1
    return found


def shell_lines(text, heading):
    """The lines of the ```sh blocks between a heading of a page and the next heading of its level."""
    section = re.split(r"^## ", text.partition(f"\n## {heading}\n")[2], maxsplit=1, flags=re.M)[0]
    return [line for block in re.findall(r"^```sh\n(.*?)^```$", section, re.M | re.S) for line in block.splitlines()]


def commands(page, text):
    """The commands of a page, each with what is shown below it."""
    found = []
    for first, lines in blocks(text):
        open_line = False
        for number, line in enumerate(lines, first):
            if open_line:
                found[-1].text += "\n" + line
                open_line = line.endswith("\\")
            elif line.startswith("$ "):
                found.append(Command(page, number, line[2:], []))
                open_line = line.endswith("\\")
                running = found[-1]
            elif found and found[-1].page == page and found[-1].line >= first:
                running.shown.append(line)
    for command in found:
        while command.shown and not command.shown[-1].strip():
            command.shown.pop()
    return [command for command in found if not GATE.search(command.text)]


def agrees(shown, printed):
    """Whether the printed lines are those shown, where a line of dots stands for any number of lines."""
    if not shown:
        return not printed
    if shown[0].strip() in LEFT_OUT:
        return any(agrees(shown[1:], printed[place:]) for place in range(len(printed) + 1))
    return bool(printed) and shown[0].rstrip() == printed[0].rstrip() and agrees(shown[1:], printed[1:])


def status(root):
    """What git shows of the tree."""
    return subprocess.run(["git", "status", "--porcelain"], cwd=root, capture_output=True, text=True, check=True).stdout


def run(root, listed):
    """Runs the commands in one shell. Gives for each its status, the folder where the shell stands after it, and what it printed."""
    mark = f"mark-{time.time_ns()}"
    script = "".join(
        f"{{ {command.text}\n}} </dev/null 2>&1; printf '\\n%s %s %s\\n' {mark} $? \"$PWD\"\n" for command in listed
    )
    try:
        whole = subprocess.run(["bash", "-c", script], cwd=root, stdout=subprocess.PIPE, timeout=LONGEST).stdout.decode(errors="replace")
    except subprocess.TimeoutExpired as late:
        whole = (late.stdout or b"").decode(errors="replace")
    found = []
    for part in re.split(rf"(?<=\n){mark} ", whole)[1:]:
        code, folder = part.split("\n", 1)[0].split(" ", 1)
        found.append([int(code), folder])
    printed = [re.sub(rf"\A{mark}[^\n]*\n", "", text)[:-1] for text in re.split(rf"(?<=\n)(?={mark} )", whole)]
    return [(code, folder, text.splitlines()) for (code, folder), text in zip(found, printed)]


def faults(root, listed, outcomes):
    found = []
    for command, (code, folder, printed) in zip(listed, outcomes):
        if code != 0:
            found.append(f"{command.place()}\n  ended with status {code}:\n" + indented(printed[-20:]))
        elif command.shown and not agrees(command.shown, printed):
            found.append(f"{command.place()}\n  the page shows\n{indented(command.shown)}\n  and it printed\n{indented(printed[:60])}")
        if pathlib.Path(folder).resolve() != pathlib.Path(root).resolve():
            found.append(f"{command.place()}\n  left the shell in {folder}")
            break  # what follows begins in another folder
    if len(outcomes) < len(listed):
        found.append(f"{listed[len(outcomes)].place()}\n  did not end, or ended the shell")
    return found


def indented(lines):
    return "\n".join("    " + line for line in lines)


def pages(root, given):
    return given or ["README.md"] + [f"docs/{file.name}" for file in sorted((root / "docs").glob("*.md"))]


def print_section(page, heading):
    lines = shell_lines(pathlib.Path(page).read_text(encoding="utf-8"), heading)
    if not lines:
        sys.exit(f"{page} has no ```sh block below the heading {heading}")
    print("\n".join(lines))


def main():
    if len(sys.argv) == 4 and sys.argv[1] == "--section":
        return print_section(*sys.argv[2:])
    if len(sys.argv) < 2 or sys.argv[1].startswith("-"):
        sys.exit("usage: commands.py ROOT [PAGE..], or commands.py --section PAGE HEADING")
    root, began = pathlib.Path(sys.argv[1]).resolve(), time.monotonic()
    listed = [command for page in pages(root, sys.argv[2:]) for command in commands(page, (root / page).read_text(encoding="utf-8"))]
    before = status(root)
    found = faults(root, listed, run(root, listed))
    after = status(root)
    found += [f"the commands left behind: {line}" for line in after.splitlines() if line not in before.splitlines()]
    for fault in found:
        print(f"commands: {fault}")
    if found or not listed:
        sys.exit(f"{len(listed)} commands of the pages have {len(found)} faults")
    compared = sum(bool(command.shown) for command in listed)
    print(f"{len(listed)} commands of the pages ran, and {compared} printed what is shown, in {time.monotonic() - began:.0f} s")


if __name__ == "__main__":
    main()
