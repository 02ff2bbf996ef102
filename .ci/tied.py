#!/usr/bin/env python3
"""Holds docs/TIED.md to the sources: every definition that must be believed has a row, and what the row names is there.

A definition that must be believed is one of any file of `specs/` but `Work`. Its row, in the table of its crate, names what ties it: statements of
`claims`, or lists of worked lines. A name there in backquotes is a statement, a worked list, a definition that must be believed or a field of one;
what has `/` or `::` in it is looked up by `names.py`. A row without a statement or a worked list says "behind the calls" (or "no call", of a program).
What is said to be behind the calls stands in no statement, in no contract of a call or an export, and in no definition that one of these has; a
definition of what a program prints ("alone, no call") is none of these.

usage: tied.py ROOT
"""
import pathlib
import re
import sys

import calls
import names
import sources
import specs

STATED = (*names.STATEMENTS, "Tied")
BEHIND, NO_CALL, UNTIED = "behind the calls", "no call", "NOTHING"
PRINTED = f"alone, {NO_CALL}"
NESTED = re.compile(r"^ +(?:(?:unfoldable|abbrev) pub|pub (?:record|data)) ([^\s:({]+)", re.M)
STARTS = re.compile(r"^ *(?:(?:unfoldable|abbrev) )?pub (?:(?:unfoldable|abbrev|record|data) )?([^\s:({]+)")
FIELD = re.compile(r"^ +(?:pub )?([^\s:(){}]+) :", re.M)
DECLARES = re.compile(r"^ +(?:pub )?[^\s:(){}]+ :")  # a field or a constructor, whose name is no use of a definition
LIST = re.compile(r"^abbrev pub (\S+) : List Case$", re.M)
STATEMENT = re.compile(r"^( *)pub ([^\s:]+) :(.*)$")
IMPORT = re.compile(r"^(?:ghost )?use \S+?specs\.\w+\.\{([^}]*)\};?$", re.M)
ALIAS = re.compile(r"^(?:ghost )?use \S+?specs\.(\w+) as (\S+?);?$", re.M)
NAME = re.compile(r"(?<![\w'.])[^\W\d][\w']*(?:\.[^\W\d][\w']*)?")  # what comes behind `).` is a field
TICKED = re.compile(r"`([^`\n]+)`")


def code(text):
    """A source without its comments and imports."""
    return "\n".join(line for line in text.split("\n") if not re.match(r"\s*--|use ", line))


def believed(text):
    """The names that a file of specs defines, at its top or in a module."""
    return specs.defined(text) + NESTED.findall(text)


def bodies(text):
    """The definitions of a file of specs, each with its whole text."""
    held, found, name = set(believed(text)), {}, None
    for line in code(text).split("\n"):
        begins = STARTS.match(line)
        if begins and begins[1] in held and (not line.startswith(" ") or NESTED.match(line)):
            name = begins[1]
        if name:
            found[name] = found.get(name, "") + (line if begins and begins[1] == name else DECLARES.sub(":", line)) + "\n"
    return found


def imported(text):
    """The names that a file brings in, each with that of its definition, and the names of whole files that it brings in under another name."""
    brought = [name.split(" as ") for listed in IMPORT.findall(text) for name in listed.split(",")]
    return {name[-1].strip(): name[0].strip() for name in brought}, {alias for _, alias in ALIAS.findall(text)}


def named(text, visible, aliases, wanted):
    """Which of the wanted definitions a text names: those that its file defines or brings in, as it calls them, or behind a name for their file."""
    found = set()
    for word in NAME.findall(text):
        first, _, second = word.partition(".")
        found |= {visible.get(first)} & wanted
        if first in aliases:
            found |= {second} & wanted
    return found


def statements(text):
    """The statements of a file of claims, each with its text up to its proof; a module's arguments count for what stands in it."""
    found, modules, name = {}, [], None
    for line in code(text).split("\n"):
        indent = len(line) - len(line.lstrip())
        if line.strip().startswith("module _"):
            modules, name = [(depth, words) for depth, words in modules if depth < indent] + [(indent, line)], "module"
        elif begins := STATEMENT.match(line):
            name = begins[2]
            modules = [(depth, words) for depth, words in modules if depth < indent]
            found[name] = begins[3] + " ".join(words for _, words in modules)
        elif name == "module" and line.strip():
            modules[-1] = (modules[-1][0], modules[-1][1] + line)
        elif name and (line.strip().startswith("unfolding ") or re.match(rf" *{re.escape(name)}(?: |$)", line)):
            name = None
        elif name in found:
            found[name] += line
    return found


def rows(text):
    """The rows of the page: the crate, the definitions, and what ties them."""
    found, crate = [], None
    for line in text.split("\n"):
        if line.startswith("## "):
            crate = line[3:].strip("` ")
        cells = [cell.strip() for cell in line.strip().strip("|").split("|")]
        if line.startswith("| `") and len(cells) == 2:
            found.append((crate, TICKED.findall(cells[0]), cells[1]))
    return found


class Sources:
    """What the page is held to, of the texts of a repository by their paths."""

    def __init__(self, files):
        self.specs = {path: text for path, text in files.items() if re.match(r"crates/\w+/specs/.*\.antt$", path) and self.stem(path) not in ("Work", "Lib")}
        self.homes = {name: path.split("/")[1] for path, text in self.specs.items() for name in believed(text)}
        self.fields = {name for text in self.specs.values() for name in FIELD.findall(text)}
        self.claims = {path: text for path, text in files.items() if re.match(r"crates/claims/proofs/\w+\.antt$", path) and self.stem(path) in STATED}
        self.statements = {name for text in self.claims.values() for name in statements(text)}
        self.lists = set(LIST.findall(files.get("crates/claims/specs/Worked.antt", "")))
        self.listed = calls.contracts(files.get("docs/CALLS.md", ""))
        self.code = {path: text for path, text in files.items() if re.match(r"crates/\w+/src/.*\.rt$", path)}

    @staticmethod
    def stem(path):
        return pathlib.PurePath(path).stem

    def users(self, wanted):
        """Who names each of the wanted definitions: statements, contracts of calls, and definitions that must be believed."""
        found = []
        for path, text in self.claims.items():
            visible, aliases = imported(text)
            found += [(f"the statement {name}", name, word) for name, body in statements(text).items() for word in named(body, visible, aliases, wanted)]
        for path, text in self.code.items():
            visible, aliases = imported(text)
            crate = path.split("/")[1]
            for function in sources.functions(crate, sources.module_of(pathlib.PurePath(path)), sources.tokens(text)):
                if (crate, function.name) in self.listed:
                    promised = " ".join(function.promises).replace(" . ", ".")
                    found += [(f"the contract of {crate}::{function.name}", function.name, word) for word in named(promised, visible, aliases, wanted)]
        for path, text in self.specs.items():
            visible, aliases = imported(text)
            for name, body in bodies(text).items():
                words = named(body, visible | {own: own for own in believed(text)}, aliases, wanted) - {name}
                found += [(f"the definition {name}", name, word) for word in words]
        return found


def ties(held, token):
    """Whether a name is that of a statement or of a worked list; `_call` names the statements of that ending."""
    return token in held.statements or token in held.lists or (token.startswith("_") and any(name.endswith(token) for name in held.statements))


def token_fault(held, token):
    """What is wrong with a name in the second column, or None."""
    known = "/" in token or "::" in token or ties(held, token) or token in held.homes or token in held.fields
    return None if known else f"no statement, worked list or definition {token}"


def row_faults(held, crate, defined, tie):
    place = f"{crate}: {', '.join(defined)}"
    tokens = TICKED.findall(tie)
    found = [f"{place}: {fault}" for token in tokens if (fault := token_fault(held, token))]
    found += [f"{place}: {name} is no definition of {crate}" for name in defined if held.homes.get(name) != crate]
    if UNTIED in tie:
        found.append(f"{place}: nothing ties it")
    elif BEHIND not in tie and NO_CALL not in tie and not any(ties(held, token) for token in tokens):
        found.append(f"{place}: no statement and no worked line is named")
    return found


def behind_faults(held, listed):
    """Definitions that are said to be behind the calls, and stand before a reader of a statement or of a call."""
    behind = {name for _, defined, tie in listed for name in defined if tie.startswith(BEHIND)}
    apart = behind | {name for _, defined, tie in listed for name in defined if PRINTED in tie}
    return sorted(f"{word} is said to be {BEHIND}, and {user} has it" for user, name, word in held.users(behind) if name not in apart)


def faults(page, files):
    held, listed = Sources(files), rows(page)
    seen = [name for _, defined, _ in listed for name in defined]
    found = [fault for row in listed for fault in row_faults(held, *row)]
    found += [f"{home}: {name} has no row" for name, home in held.homes.items() if name not in seen]
    found += [f"{name} stands in two rows" for name in sorted(set(seen)) if seen.count(name) > 1]
    return found + behind_faults(held, listed)


def main():
    if len(sys.argv) != 2:
        sys.exit("usage: tied.py ROOT")
    root = pathlib.Path(sys.argv[1])
    paths = [*root.glob("crates/*/specs/**/*.antt"), *root.glob("crates/claims/proofs/*.antt"), *root.glob("crates/*/src/*.rt"), root / "docs/CALLS.md"]
    files = {path.relative_to(root).as_posix(): path.read_text(encoding="utf-8") for path in sorted(paths)}
    page = (root / "docs/TIED.md").read_text(encoding="utf-8")
    found = faults(page, files)
    for fault in found:
        print(f"tied: {fault}")
    if found or not rows(page):
        sys.exit(f"docs/TIED.md has {len(found)} faults")
    held = Sources(files)
    print(f"{len(held.homes)} definitions that must be believed: {len(rows(page))} rows say what ties them")


if __name__ == "__main__":
    main()
