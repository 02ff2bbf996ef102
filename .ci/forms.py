#!/usr/bin/env python3
"""Holds the code to the forms that the documents name: no contract can, since a body of another form that gives the same values meets it too.

Each row of docs/PROMISES.md that names this script has a function here, which reads the tokens of the sources. A form is held by what the code
must have and by what it must not have beside it, so that neither the named step nor its place can be lost while the text stays.

usage: forms.py ROOT
"""
import functools
import pathlib
import re
import sys

import arguments
import calls
import sources

LINES = ("nonlinearity", "xor", "autocorrelation", "sac", "bic", "degree", "complete", "bijective")
DECIDED = ("complete", "bijective")
ENUM = re.compile(r"^(?:pub )?enum (\w+)[^{\n]*\{\n(.*?)^\}", re.M | re.S)
STRUCT = re.compile(r"^pub struct (\w+)", re.M)
ANSWER = re.compile(r"Result < (?:(Option) < )?(?:\w+ :: )*(\( \)|\w+)(?: >)? , (?:refusals :: )?Refusal >")
SPELLED = {"( )": "⊤", "bool": "Bool"} | dict.fromkeys(("u8", "u16", "u32", "u64", "usize"), "ℕ")
NOT_CALLED = ("if", "while", "match", "return", "in")


class Missing(Exception):
    """A function or a file that is not there."""


READ = ("crates/*/src/*.rt", "crates/*/specs/*.antt", "crates/rounds/proofs/**/*.antt", "crates.txt", "docs/CALLS.md", "docs/PROMISES.md")


def read(root):
    """The files that are looked at, from the root, with their texts."""
    found = [file for pattern in READ for file in sorted(pathlib.Path(root).glob(pattern))]
    return {file.relative_to(root).as_posix(): file.read_text(encoding="utf-8") for file in found}


@functools.lru_cache(maxsize=None)
def functions_of(file, text):
    path = pathlib.Path(file)
    return sources.functions(path.parts[1], sources.module_of(path), sources.tokens(text))


class Code:
    def __init__(self, files):
        self.files = files
        held = [function for file, text in files.items() if file.endswith(".rt") for function in functions_of(file, text)]
        self.functions = {f"{function.crate}::{function.name}": function for function in held}

    def function(self, name):
        if name not in self.functions:
            raise Missing(f"there is no function {name}")
        return self.functions[name]

    def body(self, name):
        return self.function(name).body

    def text(self, file):
        if file not in self.files:
            raise Missing(f"there is no file {file}")
        return self.files[file]

    def words(self, file):
        return sources.tokens(self.text(file))

    def below(self, *starts):
        """The files whose names begin so, with their texts."""
        return [(file, text) for file, text in self.files.items() if file.startswith(starts)]


def shown(words):
    return " ".join(words)


def place(words, part, start=0):
    """The place where the tokens of a text stand next to one another, or None."""
    wanted = sources.tokens(part)
    return next((at for at in range(start, len(words) - len(wanted) + 1) if words[at:at + len(wanted)] == wanted), None)


def lacks(name, words, *wanted):
    """A fault for the first of some texts that does not stand after the one before."""
    start = 0
    for part in wanted:
        at = place(words, part, start)
        if at is None:
            return [f"{name} has no '{part}'" + (" there" if start else "")]
        start = at + len(sources.tokens(part))
    return []


def differs(name, words, wanted):
    """A fault where the tokens are not those of a text."""
    return [] if words == sources.tokens(wanted) else [f"{name} is not '{wanted}'"]


def loops(words):
    """The bodies of the loops among tokens."""
    found = []
    for at, word in enumerate(words):
        if word in ("while", "for", "loop"):
            opened = words.index("{", at)
            found.append(words[opened + 1:sources.closing(words, opened)])
    return found


def called(words):
    """The functions that tokens call, methods and the cases of an enum apart."""
    paths = [path for path, _ in arguments.calls(words)]
    return {"::".join(path) for path in paths if path[-1][0].islower() and path[0] not in NOT_CALLED}


def arms(words):
    """The arms of a body that is one chain of `if` and `else`: each its condition (none for the last) and its tokens; else an empty list."""
    found, at = [], 0
    while at < len(words):
        if found and words[at:at + 2] == ["else", "if"]:
            at += 1
        elif found and words[at] != "else":
            return []
        opened = words.index("{", at) if "{" in words[at:] else len(words) - 1
        if words[at] not in ("if", "else") or words[opened] != "{":
            return []
        closed = sources.closing(words, opened)
        found.append((shown(words[at + 1:opened]), words[opened + 1:closed]))
        at = closed + 1
    return found


def fetched_part(code):
    """Fetching returns a part of the caller's slice: whatever it returns is cut from the parameter."""
    function = code.function("catalogue::fetch")
    found = differs("what catalogue::fetch takes", function.types[0], "&'a [u8]") + differs("what catalogue::fetch gives", function.gives, "&'a [u8]")
    body = function.body
    last = max(at for at, word in enumerate([";"] + body) if word in (";", "}") or at == 0)
    returned = [at + 1 for at, word in enumerate(body) if word == "return"] + [last]
    wanted = ["&", function.takes[0], "["]
    return found + [f"catalogue::fetch returns {shown(body[at:at + 3])} .." for at in returned if body[at:at + 3] != wanted]


def signed(code):
    """Spectrum values are signed, the magnitude is by negation, and the sign decides b."""
    found = []
    for name in ("walsh::spectrum", "linear::spectrum_of_component"):
        function = code.function(name)
        found += differs(f"the spectrum of {name}", dict(zip(function.takes, function.types)).get("out", []), "&mut [i32]")
    negation = "if v < 0 { let above = -(v + 1); (above as u32) + 1 } else { v as u32 }"
    found += differs("boolean::magnitude", code.body("boolean::magnitude"), negation)
    found += differs("boolean::sign_bit", code.body("boolean::sign_bit"), "u8::from(v < 0)")
    found += lacks("the loop of walsh::largest_magnitude", shown_loop(code, "walsh::largest_magnitude"), "largest.max(boolean::magnitude(*value))")
    wanted = ("let w = walsh::first_place(values, largest);", "let b = boolean::sign_bit(values[w]);", "b: b as u32")
    found += lacks("linear::with_spectrum", code.body("linear::with_spectrum"), *wanted)
    wanted = ("let place = walsh::first_place(values, most);", "let sign = boolean::sign_bit(values[place]);", "sign: sign as u32")
    return found + lacks("rounds::highest", code.body("rounds::highest"), *wanted)


def shown_loop(code, name):
    """The body of a function's only loop."""
    bodies = loops(code.body(name))
    if len(bodies) != 1:
        raise Missing(f"{name} has {len(bodies)} loops, and not one")
    return bodies[0]


def cut(width):
    """An arm of the transform: both halves by the transform itself, with a width, and then sums and differences."""
    return (f"let h = table.len() / 2; descend(fixed, {width}, &table[..h], &mut out[..h]); "
            f"descend(fixed, {width}, &table[h..], &mut out[h..]); butterfly(out, h);")


def halves(code):
    """The transform of the spectrum calls itself on each half of the read table and of the lent array, with the width less one, down to 3."""
    name = "walsh::descend"
    found = arms(code.body(name))
    if len(found) < 3 or found[-1][0]:
        return [f"{name} is not by its width alone: below 3, 3, and cut in halves"]
    (first, below), (second, three), *above, (_, rest) = found
    faults = differs(f"the first test of {name}", first.split(), "n < 3") + differs(f"{name} below 3", below, "by_definition(n, table, out);")
    faults += differs(f"the second test of {name}", second.split(), "n == 3") + differs(f"{name} at 3", three, "by_table(fixed, table, out);")
    for test, arm in above:
        width = re.fullmatch(r"n = = (\d+)", test)
        faults += differs(f"{name} where {test}", arm, cut(int(width[1]) - 1)) if width else [f"{name} has another test: {test}"]
    faults += differs(f"{name} above", rest, cut("n - 1"))
    faults += lacks("walsh::spectrum", code.body("walsh::spectrum"), "let fixed = spectra();", "descend(&fixed, n, table, out);")
    faults += lacks("linear::component_spectrum", code.body("linear::component_spectrum"), "walsh::descend(fixed, n, table, out);")
    call = "component_spectrum(&fixed, n, m, rows, c, &mut table[..size], out);"
    return faults + lacks("linear::spectrum_of_component", code.body("linear::spectrum_of_component"), call)


def fixed_table(code):
    """A constant of 2,048 signed numbers, which the look-up reads at eight times the number of the function."""
    words = code.words("crates/walsh/src/fixed.rt")
    at = place(words, "const FIXED: [")
    if at is None or words[at + 4] not in ("i16", "i32") or words[at + 5:at + 10] != sources.tokens("; 2048] = ["):
        return ["walsh::fixed has no constant FIXED of 2,048 signed numbers"]
    entries = sources.parts(words[at + 10:sources.closing(words, at + 9)])
    wrong = [entry for entry in entries if not re.fullmatch(r"(- )?\d+", shown(entry))]
    found = [f"walsh::fixed::FIXED has {len(entries)} entries"] if len(entries) != 2048 else []
    found += [f"walsh::fixed::FIXED has an entry that is no number: {shown(wrong[0])}"] if wrong else []
    found += differs("walsh::fixed::spectra", code.body("walsh::fixed::spectra"), "FIXED")
    wanted = "let first = number(table) * 8; copy_four(fixed, first, out, 0); copy_four(fixed, first + 4, out, 4);"
    return found + differs("walsh::by_table", code.body("walsh::by_table"), wanted)


def let_else(code):
    """Each figure's answer is taken apart by `let .. else` before its line is written, and `?` stops the sheet at a line's own answer."""
    found = []
    for line in LINES:
        name = f"sheet::write_{line}"
        body = code.body(name)
        if line == "bic" and place(body, "if m == 1 {") == 0:  # the line that has no figure
            body = body[sources.closing(body, body.index("{")) + 1:]
        if place(body, "let i = limit_of(m);") == 0:
            body = body[body.index(";") + 1:]
        taken = place(body, "= answer else {")
        if body[:3] != ["let", "answer", "="] or taken is None or place(body, "let Ok(", 1) != body.index(";") + 1:
            found.append(f"{name} does not take its answer apart by `let .. else`")
            continue
        stop = sources.closing(body, body.index("{", taken))
        before, after = body[:stop], body[stop + 2:]
        line_of = f'Some(texts::put_bytes(text, at, b"{line} %s\\n"))'
        decided = f"if yes {{ {line_of % 'yes'} }} else {{ {line_of % 'no'} }}"
        if place(body, "else { return None; };", taken) != taken + 2:
            found.append(f"{name} does not stop where its figure is refused")
        elif {"match", "if", "texts"} & set(before) or {"match", "if"} & set(after) and (line not in DECIDED or after != sources.tokens(decided)):
            found.append(f"{name} writes before its answer is taken apart, or takes it apart otherwise")
    figures = [f"*end = write_{line}(n, m, rows, text, *end)?;" for line in LINES] + ["Some(())"]
    first = ['let mut end = texts::put_line(text, 0, b"box", &[n, m]);', "let _ = write_figures(n, m, rows, text, &mut end);", "end"]
    for name, expected in (("sheet::write_figures", figures), ("sheet::write_lines", first)):
        body = code.body(name)
        found += lacks(name, body, *expected) or differs(name, body, " ".join(expected))
    return found


def upper_crate(code):
    """The sums of boxes stand above the analyser, and call of it what docs/CALLS.md lists for them and calls; their proofs read no code of another crate."""
    below = dict(re.findall(r"^(\w+)[^:\n]*:(.*)$", code.text("crates.txt"), re.M))
    if "rounds" not in below:
        raise Missing("crates.txt has no crate rounds")
    analyser = ("walsh", "masks", "linear")
    found = [f"{crate} stands on rounds" for crate in below["rounds"].split() if "rounds" in below.get(crate, "").split()]
    found += [] if "linear" in below["rounds"].split() else ["rounds does not stand on linear"]
    listed = calls.listed(code.text("docs/CALLS.md"))
    allowed = {"::".join(name) for name in listed[calls.UPPER]}
    published = allowed | {"::".join(name) for name in listed[calls.CALLS]}
    made = set()
    for name, function in code.functions.items():
        if function.crate == "rounds":
            made |= {path for path in called(function.body) if path.split("::")[0] in analyser}
    found += [f"rounds calls {path}, which docs/CALLS.md does not list for it" for path in sorted(made - published)]
    found += [f"docs/CALLS.md lists {path} for the sums of boxes, which do not call it" for path in sorted(allowed - made)]
    for file, text in code.below("crates/rounds/"):
        # below `proofs`, what has a small letter is of a function: its steps and goals
        for crate, part, module in re.findall(r"^(?:ghost )?use Rattle\.(\w+)\.(\w+)\.([^\s.{;]+)", text, re.M):
            if crate in analyser and not (part == "specs" or (part == "proofs" and module[0].isupper())):
                found.append(f"{file} uses {crate}.{part}.{module}, which is neither specs nor theorems")
    return found


def by_value(code):
    """Swap, add, mark and return take the design itself, and hand it back."""
    found = lacks("design", code.words("crates/design/src/lib.rt"), "pub struct Tuned { pub design: Design,")
    for method in ("swap", "add", "mark", "return_to"):
        name = f"design::Design::{method}"
        function = code.function(name)
        if function.takes[:1] != ["self"] or function.types[0] or not function.public:
            found.append(f"{name} is no public method on self by value")
        found += differs(f"what {name} gives", function.gives, "Tuned")
    return found


def spelled(words):
    """The type of an answer that may be a refusal, as specs spell it, and the cases that it has; or None for another type."""
    answer = ANSWER.fullmatch(shown(words))
    if not answer:
        return None
    inner = SPELLED.get(answer[2], answer[2])
    return (f"Result (Option {inner}) Refusal", ("Ok (Some", "Ok None", "Err")) if answer[1] else (f"Result {inner} Refusal", ("Ok", "Err"))


def said_by(code, crate, stated):
    """The definitions of a crate's specs that say what answers of a type say: the name of each, and what its lines are of."""
    specs = "\n".join(text for _, text in code.below(f"crates/{crate}/specs/"))
    names = re.findall(rf"^abbrev pub (\w+) : (?:{re.escape(stated)} →|.*\(answer : {re.escape(stated)}\) →) (?:Reply|Progress)$", specs, re.M)
    return [(name, re.findall(rf"^{name} ([^=]*)=", specs, re.M)) for name in names]


def answers(code):
    """Each type of answer of a public function, a `Result` with a refusal, has a definition in specs, with a line for each of its cases: in those of the
    crate, or, if it has none, in those of the crate that has its figures (of `refusals` for yes or no and for no figure). No enum but `Refusal` has one."""
    found, given = [], {}
    rows = [(file.split("/")[1], source) for file, source in code.files.items() if file.endswith(".rt")]
    for crate, name, text in [(crate, *enum) for crate, source in rows for enum in ENUM.findall(source)]:
        found += [f"{name} of {crate} is an enum with a refusal, and no `Result`"] if "Refusal" in sources.tokens(text) else []
    homes = {name: crate for crate, source in rows for name in STRUCT.findall(source)}
    for function in code.functions.values():
        if function.public and "Refusal" in function.gives:
            given.setdefault((function.crate, shown(function.gives)), function.gives)
    for (crate, shape), words in given.items():
        stated, cases = spelled(words) or (None, ())
        if stated is None:
            found.append(f"{crate} answers {shape}, which is no `Result` of a figure and a refusal")
            continue
        figures = re.sub(r"[()]|Result|Option|Refusal", "", stated).strip()
        said = said_by(code, crate, stated) or said_by(code, homes.get(figures, "refusals" if figures in ("⊤", "Bool") else crate), stated)
        found += [] if said else [f"no definition says what {stated} of {crate} says"]
        for name, lines in said:
            found += [f"{name} has no line for {case}" for case in cases if not any(re.search(rf"\({re.escape(case)}\b", line) for line in lines)]
    return list(dict.fromkeys(found))


def running_value(code):
    """The largest count is a running value: the loop that lets the counts rise brings it up to date at each rise, and no count is looked at after it."""
    found = []
    wide = ("let after = rise(a, differences, y, buckets, running);", "running = after.running;")
    rises = {
        "differential::largest_risen": (wide, {"rise"}),
        "differential::listing::measure_row": (wide, {"rise", "cells_after"}),
        "differential::narrow::largest_alone": (("running = rise_alone(differences, y, buckets, running);",), {"clear_buckets", "rise_alone"}),
    }
    for name, (wanted, only) in rises.items():
        body = code.body(name)
        found += lacks(f"the loop of {name}", shown_loop(code, name), *wanted)
        found += [f"{name} calls {path} as well" for path in sorted(called(body) - only)]
        after = body[max(at for at, word in enumerate(body) if word in ("while", "for")):]
        found += [f"{name} looks at the counts after the last rise"] if "buckets" in after[sources.closing(after, after.index("{")):] else []
    found += lacks("differential::rise", code.body("differential::rise"), "let standing = risen(a, differences, y, buckets);", "running: running.max(standing)")
    wanted = ("buckets[bucket] = standing;", "running.max(standing)")
    found += lacks("differential::narrow::rise_alone", code.body("differential::narrow::rise_alone"), *wanted)
    for name in ("differential::rise", "differential::narrow::rise_alone"):
        found += [f"{name} has a loop"] if loops(code.body(name)) else []
    callers = {"sweep_cells": "largest_risen(a, pairs, buckets)", "narrow::sweep_narrow": "largest_alone(pairs, buckets)",
               "listing::measure_rows": "measure_row(a as u32, pairs, buckets)"}
    for caller, call in callers.items():
        found += lacks(f"the loop of differential::{caller}", shown_loop(code, f"differential::{caller}"), call)
    return found


FORMS = {
    "01.forms.1": fetched_part,
    "01.forms.2": signed,
    "01.forms.3": halves,
    "01.forms.4": halves,
    "01.forms.5": fixed_table,
    "01.forms.6": halves,
    "01.forms.7": let_else,
    "01.forms.8": upper_crate,
    "01.forms.9": by_value,
    "01.forms.10": answers,
    "02.§4.8": upper_crate,
    "02.§5.1": running_value,
}


def faults(files):
    """The faults of each form, with the keys of its rows; and rows of PROMISES that name this script and have no form, or the other way round."""
    code, found = Code(files), []
    for form in dict.fromkeys(FORMS.values()):
        keys = ", ".join(key for key in FORMS if FORMS[key] is form)
        try:
            found += [f"{keys}: {fault}" for fault in form(code)]
        except Missing as fault:
            found.append(f"{keys}: {fault}")
    rows = [line.split("|") for line in code.text("docs/PROMISES.md").splitlines() if line.startswith("|")]
    named = {cells[1].strip() for cells in rows if "`.ci/forms.py`" in cells[-2]}
    return found + [f"{key} is only in one of PROMISES and this script" for key in sorted(named ^ set(FORMS))]


def main():
    if len(sys.argv) != 2:
        sys.exit("usage: forms.py ROOT")
    found = faults(read(sys.argv[1]))
    for fault in found:
        print(f"forms: {fault}")
    if found:
        sys.exit(f"the forms of the code have {len(found)} faults")
    print(f"{len(FORMS)} sentences that ask for a form have it in the code")


if __name__ == "__main__":
    main()
