#!/usr/bin/env python3
"""Holds every contract to what a function leaves: each lent array, and the reply.

A `&mut` parameter has its `.new` in an `ensures` (DECISIONS 108), of a private function too: what no contract names may be left with any content,
and a wrong program lives there. A function that returns something has an `ensures`. A method without clauses has those of the trait that its crate
declares, which are asked for there.

What a program writes is compared with the file stdout beside it. So nothing is asked of its `main`, nor of a function of a program that writes to an
output of any type and gives no more than whether that went well; where such a function has an `ensures`, it names the output as it is left.

usage: lent.py CRATES      (crates/)
"""
import pathlib
import re
import sys

import sources

# The arrays that a sweep works in and its contract does not name: each is a local of the call above, is written before it is read, and is read
# by nobody after the sweep (DECISIONS 108). No other array may be left out, and none of these may stay here once a contract names it.
WORKED_IN = {
    ("walsh::peak", "work"), ("linear::next_peak", "work"), ("rounds::product_at", "out"),
    ("rounds::sweep", "work"), ("rounds::sweep", "out"),
}


def lent(function):
    """The parameters that a function may write to."""
    bare = [[word for word in words if not word.startswith("'")] for words in function.types]
    return [name for name, words in zip(function.takes, bare) if words[:2] == ["&", "mut"]]


def unnamed(function):
    """The lent arrays whose content after the call stands in no `ensures`."""
    promises = function.promises
    named = {promises[at - 2] for at in range(2, len(promises)) if promises[at - 1:at + 1] == [".", "new"]}
    return [name for name in lent(function) if name not in named]


WRITES = sources.tokens("io::Result<()>")
OUTPUT = re.compile(r"[A-Z]\d?$")  # the name of a type that the caller picks


def only_writes(function, programs):
    """Whether a function of a program only writes to outputs, with no contract; or is `main`."""
    if function.crate not in programs or function.gives not in ([], WRITES) or "ensures" in function.clauses:
        return False
    types = dict(zip(function.takes, function.types))
    return function.name == "main" or all(OUTPUT.match(types[name][-1]) for name in lent(function))


def has_the_traits(function, declared):
    """Whether a method has the clauses of its trait."""
    return not function.clauses and (function.crate, function.implements, function.name.split("::")[-1]) in declared


def faults(functions, worked_in=frozenset()):
    programs = {function.crate for function in functions if function.name == "main"}
    declared = {(function.crate, function.declared, function.name.split("::")[-1]) for function in functions if function.declared}
    functions = [function for function in functions if not only_writes(function, programs) and not has_the_traits(function, declared)]
    found, left = [], {(f"{function.crate}::{function.name}", name) for function in functions for name in unnamed(function)}
    found += [f"{whole} is said to work in {name}, and its contract names it, or it is gone" for whole, name in sorted(worked_in - left)]
    for function in functions:
        whole = f"{function.crate}::{function.name}"
        names = [name for name in unnamed(function) if (whole, name) not in worked_in]
        found += [f"{whole} is lent {name}, and no `ensures` says what it holds afterwards" for name in names]
        if function.gives and "ensures" not in function.clauses:
            found.append(f"{whole} returns something, and has no `ensures`")
    return found


def main():
    if len(sys.argv) != 2:
        sys.exit("usage: lent.py CRATES")
    functions = sources.of_crates(pathlib.Path(sys.argv[1]))
    found, count = faults(functions, WORKED_IN), sum(len(lent(function)) for function in functions)
    for fault in found:
        print(f"lent: {fault}")
    if found or not count:
        sys.exit(f"{count} lent arrays, and {len(found)} faults")
    print(f"{count} lent arrays of {len(functions)} functions: each is named in its contract as it is left, but for {len(WORKED_IN)} that sweeps work in")


if __name__ == "__main__":
    main()
