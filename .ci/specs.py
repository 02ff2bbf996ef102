#!/usr/bin/env python3
"""Holds the border of belief to be a border of files, and what must be read to be readable.

What one must believe stands in `specs/`, in every file but `Work`, which has what functions ask of one another. So no other file of specs
imports from a `Work`, and no contract of a call or an export in docs/CALLS.md, or of what the sums of boxes call, names what its source imports from one. A definition of two
arguments or more names them in its signature. No two definitions of all specs share a name, in whatever case its letters are. No line of
src/ or specs/ has more than 140 characters, but for two that are named here: an import, and a line that renaming made longer, in files that most
crates stand on. They are to go with the next change of their files, and none may join them.

usage: specs.py CALLS CRATES      (docs/CALLS.md and crates/)
"""
import pathlib
import re
import sys

import calls

LONGEST = 140
# The most characters of a line in these files.
LEFT = {"boolean/specs/Functions.antt": 204, "walsh/specs/Calls.antt": 142}
IMPORT = re.compile(r"^(?:ghost )?use (\S+)\.\{([^}]*)\};?$", re.M)
FROM_WORK = re.compile(r"specs\.Work$")
SIGNATURE = re.compile(r"^(?:(?:unfoldable|abbrev) )?pub (?:(?:unfoldable|abbrev) )?([^\s:]+) : (.*)$")
DEFINED = re.compile(r"^(?:(?:unfoldable|abbrev) )?pub (?:(?:unfoldable|abbrev|record|data) )?([^\s:({]+)", re.M)
OPENS, CLOSES = "({[", ")}]"


def long_lines(text, file=""):
    most = LEFT.get("/".join(pathlib.Path(file).parts[-3:]), LONGEST)
    return [number for number, line in enumerate(text.split("\n"), 1) if len(line) > most]


def from_work(text):
    """The names that a file imports from a `Work`, as it calls them."""
    return [name.split(" as ")[-1].strip() for module, names in IMPORT.findall(text) if FROM_WORK.search(module) for name in names.split(",")]


def contract(text, name):
    """The text of a function from its name to its body."""
    found = re.search(rf"\bfn {re.escape(name)}\b.*?\n[ ]*\{{\n", text, re.S)
    return found.group(0) if found else ""


def names(text, name):
    return re.search(rf"(?<![\w']){re.escape(name)}(?![\w'])", text) is not None


def arguments(signature):
    """The types before each arrow of a signature; those within brackets do not count."""
    found, depth = [""], 0
    for letter in signature:
        depth += (letter in OPENS) - (letter in CLOSES)
        if letter == "→" and depth == 0:
            found.append("")
        else:
            found[-1] += letter
    return [part.strip() for part in found[:-1]]


def signatures(text):
    """The definitions of a file of specs, each with its signature, which may go on in lines that begin with white space and an arrow."""
    lines, found = text.split("\n"), []
    for place, line in enumerate(lines):
        if begins := SIGNATURE.match(line):
            whole = begins[2]
            for more in lines[place + 1:]:
                if not re.match(r"^ +→ ", more):
                    break
                whole += " " + more.strip()
            found.append((begins[1], whole))
    return found


def unnamed(signature):
    """Whether a signature has two arguments or more, and one without a name."""
    plain = [part for part in arguments(signature) if not part.startswith("{")]
    grouped = sum(len(part[1:].split(" : ")[0].split()) if re.match(r"^\([^()→]+ : ", part) else 1 for part in plain)
    return grouped >= 2 and any(not re.match(r"^\([^()→]+ : ", part) for part in plain)


def defined(text):
    """The names that a file of specs defines; fields and constructors belong to their type and are none."""
    return [name for name in DEFINED.findall(text) if name not in ("mod", "use")]


def twice_defined(homes):
    """Names with two meanings: `homes` has the files of each name in small letters."""
    return [f"{name} is defined in {', '.join(files)}" for name, files in sorted(homes.items()) if len(files) > 1]


def faults_of_specs(file, text):
    found = [f"{file}: {name} does not name its arguments" for name, signature in signatures(text) if unnamed(signature)]
    if pathlib.Path(file).name != "Work.antt" and from_work(text):
        found.append(f"{file}: must be believed, and imports {', '.join(from_work(text))} from a Work")
    return found


def faults_of_calls(crate, text, listed):
    """The contracts of a crate's calls that name what need not be believed."""
    return [
        f"{crate}::{name}: its contract names {work} of a Work"
        for home, name in listed if home == crate
        for work in from_work(text) if names(contract(text, name.split("::")[-1]), work)
    ]


def main():
    if len(sys.argv) != 3:
        sys.exit("usage: specs.py CALLS CRATES")
    listed = calls.believed(pathlib.Path(sys.argv[1]).read_text(encoding="utf-8"))
    found, read, homes = [], 0, {}
    for file in sorted(pathlib.Path(sys.argv[2]).glob("*/src/**/*.rt")) + sorted(pathlib.Path(sys.argv[2]).glob("*/specs/**/*.antt")):
        text, read = file.read_text(encoding="utf-8"), read + 1
        found += [f"{file}:{number}: more than {LONGEST} characters" for number in long_lines(text, file)]
        is_spec = file.suffix == ".antt"
        for name in defined(text) if is_spec else []:
            homes.setdefault(name.lower(), []).append(str(file))
        crate = file.parts[len(pathlib.Path(sys.argv[2]).parts)]
        found += faults_of_specs(str(file), text) if is_spec else faults_of_calls(crate, text, listed)
    for fault in found + twice_defined(homes):
        print(f"specs: {fault}")
    if not read or found or twice_defined(homes):
        sys.exit(f"{read} files of src and specs have {len(found + twice_defined(homes))} faults")
    print(f"{read} files of src and specs: what must be believed stands apart, and each of {len(homes)} names has one meaning")


if __name__ == "__main__":
    main()
