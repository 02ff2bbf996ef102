#!/usr/bin/env python3
"""Counts the places of docs/DESIGN-PASS.md in the sources of a checkout, by the tokens of the code: for each point one line with the count, and the
places under it. It finds what has the shape of an older form; whether a place is one, the page says.

usage: places.py [--counts] ROOT        (--counts prints the lines of the points alone)
"""
import collections
import pathlib
import re
import sys

sys.path.insert(0, str(pathlib.Path(__file__).resolve().parent.parent / ".ci"))
import sources

TYPES = {"u8", "u16", "u32", "u64", "i16", "i32", "i64", "usize", "bool"}
KEPT_WORDS = {"let", "mut", "if", "else", "while", "for", "in", "match", "return", "as", "fn", "self", "loop", "true", "false"}
ENUM = re.compile(r"^(?:pub )?enum (\w+)[^{\n]*\{\n(.*?)^\}", re.M | re.S)
STRUCT = re.compile(r"^(?:pub )?struct (\w+)[^{;\n]*\{\n(.*?)^\}", re.M | re.S)
FLAG = re.compile(r"^\s+(?:pub )?(taken|found|present|valid|known|some|is_\w+|has_\w+|full): (bool|u\d+)|^\s+(?:pub )?(\w+): bool", re.M)
SENTINEL = re.compile(r"^//[^\n]*\b(?:0|the number of \w+|\w+ more than any|the length)\b[^\n]*\bwhere (?:there is )?(?:no|none)\b", re.M)
BY_HAND = re.compile(
    r"(?:.*::)?(?:copy\w*|copied\w*|as_\w+|to_\w+|wide\w*|narrow\w*|number_of\w*|magnitude\w*|sign_bit\w*|\w+_distinct|lacks_\w+|same_\w+|equal\w*|larger|smaller|"
    r"(?:two|four|eight)_bytes\w*|word_at|put_word|put_u\w+|set_word|write_word|\w*_as_bytes|clear\w*|fill\w*|rows_from|largest|least_of|power_of_two)$")


def functions(root):
    """The functions of the sources, each with its place; what C links has only calls and is left out."""
    found = []
    for file in sorted(root.glob("crates/*/src/*.rt")):
        crate = file.parent.parent.name
        if not crate.endswith("_c"):
            text = file.read_text(encoding="utf-8")
            found += sources.functions(crate, sources.module_of(file), sources.tokens(text))
    return found


def texts(root):
    return [(file.parent.parent.name, file, file.read_text(encoding="utf-8")) for file in sorted(root.glob("crates/*/src/*.rt")) if not file.parent.parent.name.endswith("_c")]


def name_of(function):
    return f"{function.crate}::{function.name}"


def own_forms(root):
    """1: enums of the shape of Option or Result, flags with a value beside them, numbers in place of kinds."""
    found = []
    for crate, _, text in texts(root):
        for name, body in ENUM.findall(text):
            cases = [part for part in sources.parts(sources.tokens(body)) if part]
            if any("Refusal" in case for case in cases):
                found.append(f"{crate}: enum {name}, a case of which is a refusal")
            elif len(cases) == 2 and sum(len(case) == 1 for case in cases) == 1:
                found.append(f"{crate}: enum {name}, nothing or a value")
        for name, body in STRUCT.findall(text):
            found += [f"{crate}: struct {name}, the flag {flag[0] or flag[2]}" for flag in FLAG.findall(body)]
        found += [f"{crate}: {line.strip('/ ')}" for line in (match[0] for match in SENTINEL.finditer(text))]
    return found


def normal(body):
    """A body with its types, its literals and its own names replaced, each name by the place where it first stands."""
    names, said = {}, []
    for place, word in enumerate(body):
        if word in TYPES:
            said.append("T")
        elif re.fullmatch(r"\d[\w]*", word):
            said.append("0")
        elif word in KEPT_WORDS or not re.match(r"[^\W\d]", word) or (place and body[place - 1] == "."):
            said.append(word)
        elif word.startswith('b"') or word.startswith('"'):
            said.append("text")
        else:
            said.append(names.setdefault(word, f"n{len(names)}"))
    return " ".join(said)


def twins(root):
    """2: functions whose bodies are equal but for types, literals and names. Bodies of fewer than 24 words are left out."""
    groups = collections.defaultdict(list)
    for function in functions(root):
        if len(function.body) >= 24:
            groups[normal(function.body)].append(name_of(function))
    return [" = ".join(names) for names in groups.values() if len(names) > 1]


def indexed(root):
    """3: `while` loops that count up by one to a bound."""
    found = []
    for function in functions(root):
        body = function.body
        for at in (place for place, word in enumerate(body) if word == "while"):
            opened = body.index("{", at)
            closed = sources.closing(body, opened)
            test, last = body[at + 1:opened], body[closed - 5:closed]
            counts = len(last) == 5 and last[1:] == ["+", "=", "1", ";"] and last[0] in test
            if counts and ("<" in test or "=" in test):
                found.append(f"{name_of(function)}: while {' '.join(test)}")
    return found


def loops(root):
    """Beside 3: all `while` loops."""
    return [f"{name_of(function)}" for function in functions(root) for word in function.body if word == "while"]


def by_hand(root):
    """4: functions that copy, convert or compare by hand, by their names, and that no trait has."""
    return [name_of(function) for function in functions(root) if BY_HAND.fullmatch(function.name) and not function.implements and not function.declared]


def clause_words(text):
    """The `requires` of each function of a file, as tokens."""
    words = sources.tokens(text)
    for at, word in enumerate(words):
        if word == "requires":
            opened = words.index("{", at)
            yield words[opened + 1:sources.closing(words, opened)]


def conjuncts(words):
    found, depth = [[]], 0
    for word in words:
        depth += (word in "([{") - (word in ")]}")
        if word == "×" and depth == 0:
            found.append([])
        else:
            found[-1].append(word)
    return [" ".join(part) for part in found if part]


def shared(root):
    """5: facts that stand in the `requires` of three functions or more of a crate, and parameters of the same names and types (three or more) that
    three functions or more of a crate take together."""
    facts, groups = collections.Counter(), collections.defaultdict(list)
    for crate, _, text in texts(root):
        for words in clause_words(text):
            facts.update((crate, fact) for fact in set(conjuncts(words)))
    for function in functions(root):
        pairs = [f"{name}: {' '.join(kind)}" for name, kind in zip(function.takes, function.types)]
        for size in range(3, len(pairs) + 1):
            for at in range(len(pairs) - size + 1):
                groups[function.crate, tuple(pairs[at:at + size])].append(function.name)
    found = [f"{crate}: {fact} ({count})" for (crate, fact), count in sorted(facts.items()) if count >= 3]
    held = {key: names for key, names in groups.items() if len(names) >= 3}
    for (crate, pairs), names in sorted(held.items()):
        longer = any(c == crate and len(other) > len(pairs) and set(pairs) < set(other) and len(more) >= len(names) for (c, other), more in held.items())
        if not longer:
            found.append(f"{crate}: ({', '.join(pairs)}) ({len(names)})")
    return found


def beside(root):
    """6: an array of a function or struct with a length of its own beside it, and arrays of a function that a clause makes equally long."""
    found = []
    for function in functions(root):
        arrays = [name for name, kind in zip(function.takes, function.types) if "[" in kind]
        sizes = [name for name, kind in zip(function.takes, function.types) if kind == ["usize"] and re.fullmatch(r"count|len|length|size|used|filled|held|records", name)]
        found += [f"{name_of(function)}: {', '.join(arrays)} and {size}" for size in sizes if arrays]
    for crate, _, text in texts(root):
        for name, body in STRUCT.findall(text):
            arrays, sizes = re.findall(r"(\w+): (?:&mut )?\[", body), re.findall(r"\b(count|len|length|size|used|filled|held): (?:u\d+|usize)", body)
            found += [f"{crate}: struct {name}: {', '.join(arrays)} and {size}" for size in sizes if arrays]
        for words in clause_words(text):
            found += [f"{crate}: {fact}" for fact in conjuncts(words) if re.match(r"\(? ?length [\w.' ]+ ≡ length [\w.' ]+\)?$", fact.replace(" . ", "."))]
    return found


def switches(root):
    """7: parameters that say which step to run: a `bool`, or a name such as `kind` or `which`; tables of functions; `dyn`."""
    found = []
    for function in functions(root):
        for name, kind in zip(function.takes, function.types):
            if kind == ["bool"] or name in ("kind", "which", "mode", "how", "op"):
                found.append(f"{name_of(function)}: {name}")
            elif "dyn" in kind or kind[:1] == ["fn"]:
                found.append(f"{name_of(function)}: {name}: {' '.join(kind)}")
    return found


def proofs(root):
    """8: proofs that walk the code, one file for a function."""
    return [file.relative_to(root).as_posix() for file in sorted(root.glob("crates/*/proofs/**/Proof.antt"))]


POINTS = (
    ("1", "own enums like Option or Result, flags beside a value, numbers for none", own_forms),
    ("2", "groups of functions that differ in types, sizes and names alone", twins),
    ("3", "loops that count an index", indexed),
    ("3 (all)", "`while` loops, whatever they do", loops),
    ("4", "functions that copy, convert or compare by hand", by_hand),
    ("5", "facts in three contracts of a crate, groups of parameters in three functions", shared),
    ("6", "arrays with a length beside them, arrays made equally long by a clause", beside),
    ("7", "parameters that say which step to run, tables of functions", switches),
    ("8", "proofs that walk the code", proofs),
)


def main():
    counts, names = sys.argv[1:2] == ["--counts"], [name for name in sys.argv[1:] if name != "--counts"]
    if len(names) != 1:
        sys.exit("usage: places.py [--counts] ROOT")
    root = pathlib.Path(names[0])
    for point, what, look in POINTS:
        found = look(root)
        print(f"{point}: {len(found)} {what}")
        for place in [] if counts else found:
            print(f"    {place}")


if __name__ == "__main__":
    main()
