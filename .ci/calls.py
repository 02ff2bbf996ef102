#!/usr/bin/env python3
"""Prints the lists of docs/CALLS.md from the sources, and compares: what is public stands there, once, under what its source makes it.

Every `pub fn` below crates/ stands in one section:
- exported: a call from C. It has no `requires`, and an `ensures`. The crate NAME_c, which is linked into C, has a function of the same name that only
  hands its arguments to it, with the same types and clauses; NAME_c has no other function, and none of its own stands on the page;
- of a crate of the analyser, called by the sums of boxes, and no call: in the section of these. It has an `ensures`, over definitions that are to
  be believed (`specs.py`);
- with a `requires`: a function between crates that asks something;
- a call: it stands at the root of its crate, gives an answer, and its `ensures` begins with what the answer says (`said..`) or with the name of the
  whole outcome. One that has a `requires` is a fault, wherever it is listed;
- all others ask nothing, and are between crates.
The sentences of the page are its own; `--write` makes the lists anew, crates by their names and functions as their sources have them.

usage: calls.py [--write] CALLS CRATES      (docs/CALLS.md and crates/)
"""
import pathlib
import re
import sys

import sources

CALLS, EXPORTS, UPPER = "Calls", "Calls from C", "Functions that the sums of boxes call"
ASKING, FREE = "Functions between crates that ask something", "Functions between crates that ask nothing"
SECTIONS = (CALLS, EXPORTS, UPPER, ASKING, FREE)
SUMS, ANALYSER = "rounds", ("walsh", "masks", "linear")
LINKED = "_c"  # how the name of a crate that is linked into C ends, behind that of its library
WIDEST = 150
ENTRY = re.compile(r"- `(\w+)`: (.*)$")
NAME = re.compile(r"`([\w:]+)`")
HEADING = re.compile(r"^(?=## )", re.M)


def section_name(part):
    """The section that a part of the page is, or None for what stands before the first."""
    if not part.startswith("## "):
        return None
    name = part.partition("\n")[0][3:].strip()
    if name not in SECTIONS:
        raise ValueError(f"no section may be called '{name}'")
    return name


def listed(text):
    """The list: for each section the functions in it, each with its crate."""
    found = {name: [] for name in SECTIONS}
    for part in HEADING.split(text):
        section = section_name(part)
        for entry in filter(None, map(ENTRY.match, part.splitlines() if section else [])):
            found[section] += [(entry.group(1), name) for name in NAME.findall(entry.group(2))]
    return found


def contracts(text):
    """The public contracts: the calls and the exports."""
    found = listed(text)
    return found[CALLS] + found[EXPORTS]


def believed(text):
    """The functions whose contracts name only what is to be believed: the calls, the exports, and what the sums of boxes call."""
    return contracts(text) + listed(text)[UPPER]


def is_outcome(function):
    """Whether a function at the root of its crate has the contract of a call: an answer, and what it says or the whole outcome by its name."""
    promises = function.promises
    if not function.gives or "{" not in promises or re.match(r"[a-z]\w*::", function.name):
        return False
    first = next(word for word in promises[promises.index("{") + 1:] if word != "(")
    reply = function.gives[0] == "Result" and function.gives[-2:] == ["Refusal", ">"]  # (a check gives this too: its contract names no outcome)
    answer = reply or function.gives[-1][0].isupper()
    part, length = function.gives[0] == "&", function.gives == ["usize"] and (".", "new") in zip(promises, promises[1:])
    return (answer or part or length) and (first.startswith("said") or first[0].isupper())


def called_by_sums(functions):
    """The bodies of the sums of boxes as one text, in which a call of another crate is `crate :: name (`."""
    return " ".join(word for function in functions if function.crate == SUMS for word in function.body)


def exports(functions):
    """The functions of the libraries that C calls, by the crates that are linked into it."""
    return {(function.crate.removesuffix(LINKED), function.name) for function in functions if function.exported}


def section_of(function, sums, exported):
    """The section in which a public function stands."""
    if (function.crate, function.name) in exported:
        return EXPORTS
    if is_outcome(function) and "requires" not in function.clauses:
        return CALLS
    if function.crate in ANALYSER and f"{function.crate} :: {function.name.replace('::', ' :: ')} (" in sums:
        return UPPER
    return ASKING if "requires" in function.clauses else FREE


def by_section(functions):
    """What the sources say: for each section its public functions, by crates."""
    sums, exported, found = called_by_sums(functions), exports(functions), {name: [] for name in SECTIONS}
    for function in functions:
        if function.public and not function.exported:
            found[section_of(function, sums, exported)].append((function.crate, function.name))
    return {section: sorted(names, key=lambda name: name[0]) for section, names in found.items()}


def entries(names):
    """The lines of a list, each with its crate and as many functions as it has room for."""
    found = []
    for crate, name in names:
        if found and found[-1].startswith(f"- `{crate}`:") and len(found[-1]) + len(name) + 4 <= WIDEST:
            found[-1] += f", `{name}`"
        else:
            found.append(f"- `{crate}`: `{name}`")
    return found


def printed(text, functions):
    """The page, its sentences as they are and its lists made from the sources."""
    said, found = by_section(functions), []
    for part in HEADING.split(text):
        section = section_name(part)
        sentences = "\n".join(line for line in part.splitlines() if not section or not ENTRY.match(line)).rstrip()
        found.append("\n\n".join(filter(None, [sentences, "\n".join(entries(said[section])) if section else ""])) + "\n")
    return "\n".join(found)


def export_faults(function, libraries):
    """Where an export is not the library's function of its name, handed on."""
    home = function.crate.removesuffix(LINKED)
    inner = libraries.get((home, function.name))
    if inner is None or home == function.crate:
        return [f"no function {function.name} of the library {home} is public"]
    arguments, body = ", ".join(function.takes), function.body
    plain = [word for word, after in zip(body, body[1:] + [""]) if (word, after) != (",", ")")]  # as where the call stands on one line
    handed = sources.tokens(f"{home}::{function.name}({arguments})")
    same = {
        "other arguments": (function.takes, function.types) == (inner.takes, inner.types),
        "another reply": function.gives == inner.gives,
        "another contract": (function.clauses, function.promises) == (inner.clauses, inner.promises),
        f"another body than `{home}::{function.name}({arguments})`": plain == handed,
    }
    return [f"it has {what}" for what, holds in same.items() if not holds]


def linked_faults(functions):
    """What is wrong with the crates that are linked into C: each holds exports alone, and each of these is the library's function of its name."""
    libraries = {(function.crate, function.name): function for function in functions if function.public and not function.exported}
    linked, found = {function.crate for function in functions if function.exported}, []
    for function in (function for function in functions if function.crate in linked):
        faults = export_faults(function, libraries) if function.exported else ["it is no export, and its crate is linked into C"]
        found += [f"{function.crate}::{function.name}: {fault}" for fault in faults]
    return found


def source_faults(functions):
    """What a contract lacks or has too much, wherever the function is listed."""
    sums, exported, found = called_by_sums(functions), exports(functions), linked_faults(functions)
    for function in (function for function in functions if function.public and not function.exported):
        name, section = f"{function.crate}::{function.name}", section_of(function, sums, exported)
        if "requires" in function.clauses and (section == EXPORTS or is_outcome(function)):
            found.append(f"{name} is a call, and has a `requires`")
        if "ensures" not in function.clauses and (section in (CALLS, EXPORTS, UPPER) or function.gives):
            found.append(f"{name} gives something, and has no `ensures`")
    return found


def page_faults(text, functions):
    """Where the page is not what the sources say."""
    said = {name: section for section, names in by_section(functions).items() for name in names}
    found, seen = [], []
    for section, names in listed(text).items():
        for name in names:
            if name not in said:
                found.append(f"{'::'.join(name)} stands under '{section}', and its crate has no such `pub fn`")
            elif said[name] != section:
                found.append(f"{'::'.join(name)} stands under '{section}', and its source makes it one of '{said[name]}'")
        seen += names
    found += [f"{'::'.join(name)} stands there twice" for name in sorted(set(seen)) if seen.count(name) > 1]
    found += [f"{'::'.join(name)} is public and not in the list" for name in said if name not in seen]
    found += [f"a section is missing: '{section}'" for section in SECTIONS if f"\n## {section}\n" not in text]
    return found or ([] if text == printed(text, functions) else ["the lists have another order or form than the printed ones"])


def main():
    write, names = sys.argv[1:2] == ["--write"], [name for name in sys.argv[1:] if name != "--write"]
    if len(names) != 2:
        sys.exit("usage: calls.py [--write] CALLS CRATES")
    page, functions = pathlib.Path(names[0]), sources.of_crates(pathlib.Path(names[1]))
    text, wrong = page.read_text(encoding="utf-8"), source_faults(functions)
    if write and not wrong:
        text = printed(text, functions)
        page.write_text(text, encoding="utf-8")
    differs = page_faults(text, functions)
    for fault in wrong + differs:
        print(f"calls: {fault}")
    if wrong or differs or not contracts(text):
        advice = f"; `.ci/calls.py --write {names[0]} {names[1]}` makes the lists anew" if differs and not wrong else ""
        sys.exit(f"the list of calls has {len(wrong + differs)} faults{advice}")
    sizes = {section: len(held) for section, held in listed(text).items()}
    print(f"{sizes[CALLS]} calls and {sizes[EXPORTS]} exports ask nothing of their caller; {sizes[UPPER] + sizes[ASKING] + sizes[FREE]} public functions are for other crates")


if __name__ == "__main__":
    main()
