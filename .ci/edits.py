#!/usr/bin/env python3
"""Holds each must-fail edit to its own refusals, and each public contract to two wrong programs or more.

`rt` takes an edit for refused if its crate is not proved, for whatever reason. An edit may make several functions of one crate wrong at
once, and this script reads the log of its check, which tries.py makes: every function that the edit names by a line 'refused: NAME', and every law that it names by
a line 'law: NAME', must be refused in it by an error of its own that is a fact that no longer holds. Of a function that is an error in what
it returns or in what a loop of it keeps, or else its first error, and where it has no proof of its own, that none is found; of a law it is the first. A proof that only no longer fits the code shows
nothing, and neither does an edit that changes nothing but arguments that no function reads.

The public contracts are those of the calls and exports of docs/CALLS.md.

usage: edits.py CALLS CRATES LOGS      (docs/CALLS.md, crates/ and target/must-fail/, after tries.py)
"""
import dataclasses
import itertools
import pathlib
import re
import sys

import arguments
import calls
import sources

# An error of one of these kinds says that the proof was written for code of another shape: what comes after it may be refused for that alone.
SHAPE = (
    "that can be named from here",
    "` has no field `",
    "but this has type `tie.Need-",
    "but this has type `goal.",
)
# An error of one of these kinds says that the proof does not fit the code, that something else failed before, or that the check gave up.
UNFIT = SHAPE + (
    "was not admitted",
    "`rw`: no occurrence",
    "`rw`: no part of the goal",
    "`simp`: no equation of the list has an instance",
    "stopped at the step limit",
)
# The goals that say what a function returns, and what a loop of it keeps, by the prover's names and by those that our proofs give them.
OUTCOME = re.compile(r"returns(-.+)?|loop[-_](holds|again)([-_]\d+)?|.+-(init|preserved)(-\d+)?")
NOT_SHOWN = "what differs could not be computed"
OTHER_TEST = "the test has another form"
ERROR = re.compile(r"^(\S+): error: `([^`]*)`: ")
GOES_ON = "  "  # what each further line of a message begins with
OF_FUNCTION = re.compile(r"/(Proof|Answers|Invariants)\.antt:")  # the proof of a function, and no lemma's
NO_PROOF = re.compile(r"no proof: .*`search` did not prove `")
TYPES = re.compile(r"expected type `([^`]*)`,? but this has type `([^`]*)`")
PREFIX = re.compile(r"[\w.]*◌([<≤≡])◌ ")
HOLE = re.compile(r"\?\d")
UNCOMPUTED = re.compile(r"could not be computed|neither could be computed")
DIFFER = re.compile(r"as printed, the two (types|sides) (first )?differ")
# a fact with the first relation is one with the second too
IMPLIED = (("<", "≤"), ("<", "≢"), ("≡", "≤"))
WANTED = 2


@dataclasses.dataclass
class Wrong:
    """A wrong program, or a wrong definition: what must be refused, and the changes, each a file, the old text and the new."""

    crate: str
    edit: str
    is_law: bool
    name: str
    changes: list


def wrongs(crate, edit):
    """What an edit names: the changes after a line 'refused:' or 'law:', up to the next, belong to it."""
    found, file, old = [], None, None
    for line in edit.read_text(encoding="utf-8").splitlines():
        word, _, rest = line.partition(":")
        rest = rest.removeprefix(" ")
        if word in ("refused", "law"):
            found.append(Wrong(crate, edit.stem, word == "law", rest.strip(), []))
        elif word == "file":
            file = rest
        elif word == "old":
            old = rest
        elif word == "new" and found:
            found[-1].changes.append((file, old, rest))
    return found


# ---- what the log says


def errors(lines):
    """The errors of a log: the file, the declaration, and the whole message, which may run over several lines; it is put on one."""
    found = []
    for at, line in enumerate(lines):
        match = ERROR.match(line)
        if match:
            end = at + 1
            while end < len(lines) and lines[end].startswith(GOES_ON):
                end += 1
            found.append((match.group(1), match.group(2), " ".join(" ".join(lines[at:end]).split())))
    return found


def relation(printed):
    """The relation of two numbers that a printed type states, `≢` where equality is denied; None for any other type."""
    denied = re.fullmatch(r"(.*) → (?:[\w.]*\.)?⊥", printed)
    text = denied.group(1) if denied else printed
    prefix = PREFIX.match(text)
    found = prefix.group(1) if prefix else None
    depth = 0
    for word in text.split(" "):
        if depth == 0 and not prefix and word in ("<", "≤", "≡"):
            found = word
        depth += sum(word.count(opens) for opens in "({[") - sum(word.count(closes) for closes in ")}]")
    return "≢" if denied and found == "≡" else None if denied else found


def other_test(message):
    """Whether a message only says that a test of the code has another relation than the proof was written for."""
    types = TYPES.search(message)
    wanted, has = (relation(printed) for printed in types.groups()) if types else (None, None)
    if wanted is None or has is None or wanted == has:
        return False
    if {wanted, has} == {"≡", "≢"}:  # the fact itself is denied
        return False
    return bool(HOLE.search(types.group(1))) or (has, wanted) in IMPLIED


def not_shown(message):
    """Whether a message neither prints nor computes what differs. (The check itself may take many more steps than what is shown of it.)"""
    return bool(UNCOMPUTED.search(message)) and not DIFFER.search(message)


def unfit(message):
    kind = next((kind for kind in UNFIT if kind in message), None)
    return kind or (NOT_SHOWN if not_shown(message) else None) or (OTHER_TEST if other_test(message) else None)


def outcome_fails(own):
    """Whether what a function returns, or what a loop of it keeps, fails by a fact. Of its errors, each with its goal, those count that come
    before one which says that the code has another shape."""
    kinds = [(goal, unfit(message)) for goal, message in own]
    fitting = itertools.takewhile(lambda error: error[1] not in SHAPE, kinds)
    return any(OUTCOME.fullmatch(goal) and kind is None for goal, kind in fitting)


def first_fault(messages):
    kind = unfit(messages[0])
    return kind and f"its first error is no fact ({kind})"


def function_fault(crate, name, lines, found):
    """What is wrong with the refusal of a function, or None."""
    prefix = f"fn {crate}::{name}: "
    told = next((line[len(prefix):] for line in lines if line.startswith(prefix)), None)
    if told is None:
        return "the log does not name it"
    if told == "proved":
        return "it is proved"
    folder = re.compile(r"/proofs/" + r"/".join(r"\+?" + re.escape(part) for part in name.split("::")) + OF_FUNCTION.pattern)
    own = [(goal, message) for file, goal, message in found if folder.search(file)]
    if own:
        return None if outcome_fails(own) else first_fault([message for _, message in own])
    if NO_PROOF.match(told):
        return None
    return f"it has no error of its own ({told})"


def law_fault(name, found):
    """What is wrong with the refusal of a law, or None. A law may stand in specs/ too; a goal of a function is none."""
    of_function = re.compile("/proofs/.+" + OF_FUNCTION.pattern)  # one that stands in proofs/ itself is a lemma's file
    own = [message for file, law, message in found if law == name and re.search("/(proofs|specs)/", file) and not of_function.search(file)]
    return first_fault(own) if own else "no error is in its proof"


# ---- what the edit changes


def is_same(program, crate, path, before, after):
    if path.parent.name == "src":
        return program.same(crate, sources.module_of(path), before, after)
    return before == after


def change_fault(crates, program, wrong):
    """What is wrong with the changes of a wrong program, or None: each must be found, and the program must be another one after them."""
    before, after = {}, {}
    for file, old, new in wrong.changes:
        path = crates / wrong.crate / (file or "")
        if not file or not path.is_file():
            return f"it changes no file of the crate ({file})"
        before.setdefault(path, path.read_text(encoding="utf-8"))
        text = after.get(path, before[path])
        if not old or text.count(old) != 1:
            return f"an `old:` text does not stand in {file} once"
        after[path] = text.replace(old, new)
    if all(is_same(program, wrong.crate, path, before[path], text) for path, text in after.items()):
        return "it changes nothing, or only arguments that no function reads"
    return None


# ---- all of them


def fault(crates, program, wrong, log):
    changed = change_fault(crates, program, wrong)
    if changed:
        return changed
    if not log.is_file():
        return "it has no log"
    lines = log.read_text(encoding="utf-8", errors="replace").splitlines()
    found = errors(lines)
    return law_fault(wrong.name, found) if wrong.is_law else function_fault(wrong.crate, wrong.name, lines, found)


def judged(crates, logs):
    """The wrong programs and definitions whose refusals hold, and a line for each fault."""
    program, held, faults = arguments.Program(crates), [], []
    for edit in sorted(crates.glob("*/must-fail/*.edit")):
        crate = edit.parent.parent.name
        named = wrongs(crate, edit)
        names = [wrong.name for wrong in named]
        if not named:
            faults.append(f"{crate}/{edit.stem}: it names nothing that must be refused")
        if len(set(names)) < len(names):
            faults.append(f"{crate}/{edit.stem}: it names something twice, and the log does not tell the two apart")
        for wrong in named:
            found = fault(crates, program, wrong, logs / crate / edit.stem / ".log")
            if found:
                faults.append(f"{crate}/{edit.stem}: {wrong.name}: {found}")
            else:
                held.append(wrong)
    return held, faults


def thin(contracts, held):
    """The public contracts with too few wrong programs, each with its number. Two edits that make the same change are one wrong program."""
    programs = {}
    for wrong in held:
        if not wrong.is_law:
            programs.setdefault((wrong.crate, wrong.name), set()).add(tuple(tuple(change) for change in wrong.changes))
    counted = {contract: len(programs.get(contract, ())) for contract in contracts}
    return [f"{'::'.join(contract)} has {number}" for contract, number in counted.items() if number < WANTED]


def main():
    if len(sys.argv) != 4:
        sys.exit("usage: edits.py CALLS CRATES LOGS")
    contracts = calls.contracts(pathlib.Path(sys.argv[1]).read_text(encoding="utf-8"))
    held, faults = judged(pathlib.Path(sys.argv[2]), pathlib.Path(sys.argv[3]))
    few = thin(contracts, held)
    for line in faults:
        print(f"must-fail {line}")
    for line in few:
        print(f"wrong programs: {line}, and {WANTED} are asked for")
    if faults or few or not held or not contracts:
        sys.exit(f"{len(faults)} of the named refusals do not hold, and {len(few)} public contracts have too few wrong programs")
    laws = sum(wrong.is_law for wrong in held)
    print(
        f"{len(held) - laws} named wrong programs and {laws} wrong definitions, each refused by an error of its own that is a fact;"
        f" {WANTED} wrong programs or more for each of {len(contracts)} public contracts"
    )


if __name__ == "__main__":
    main()
