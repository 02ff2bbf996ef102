#!/usr/bin/env python3
"""Tests of calls.py and of what it reads of a source, on planted sources and a planted page."""
import pathlib
import subprocess
import sys
import tempfile
import unittest

import calls
import sources

PAGE = """# Calls

What is public.

## Calls

They ask nothing.

- `catalogue`: `fetch`
- `linear`: `nonlinearity`, `write_text`
- `server`: `Server::step`

## Calls from C

- `satmegwo`: `satmegwo_nonlinearity`

## Functions that the sums of boxes call

- `linear`: `largest`, `count`

## Functions between crates that ask something

- `linear`: `sweep`, `listing::measure`

## Functions between crates that ask nothing

- `linear`: `spectra`, `check`
"""
LINEAR = """// pub fn old(n: u32) { is a comment }
pub fn nonlinearity<'a>(n: u32, rows: &'a [u32]) -> Result<Found, Refusal>
    ensures reply { said_least_pair { A = ℕ } result ≡ n }
    ensures same { result ≡ n }
{
    let text = b"pub fn hidden() {";
    rows
}

pub fn write_text(text: &mut [u8; 8]) -> usize
    ensures { TextWritten result text.new }
{ 8 }

pub fn sweep(mut found: Found, values: &mut [i32]) -> [i32; 8]
    requires { n ≤ 8 }
    ensures { result ≡ n }
{ values }

pub fn spectra() -> [i32; 8]
    ensures { Spectra result }
{ [0i32; 8] }

pub fn check(n: u32) -> Result<(), Refusal> ensures { result ≡ first (checks n) } { n }

pub fn largest(n: u32) -> u32 ensures { result ≡ n } { n }

pub fn count(n: u32) -> u32 requires { n ≤ 8 } ensures { result ≡ n } { n }

fn private(n: u32) {}
"""
LISTING = "pub fn measure(n: u32) -> Result<u32, Refusal> requires { n ≤ 8 } ensures { ListCalled n result } { n }\n"
SERVER = "struct Server { n: u32 }\nimpl Server {\n    pub fn step(self) -> Self ensures { ServerStepped self result } { self }\n}\nfn after() {}\n"
CATALOGUE = "pub fn fetch<'a>(catalogue: &'a [u8]) -> &'a [u8] ensures { Handed catalogue.now result } { catalogue }\n"
LIBRARY = "pub fn satmegwo_nonlinearity(n: u32, rows: &[u32]) -> u32 ensures { result ≡ n } { n }\n"
EXPORTS = """#[unsafe(no_mangle)]
pub extern "C" fn satmegwo_nonlinearity(n: u32, rows: &[u32]) -> u32 ensures { result ≡ n } { satmegwo::satmegwo_nonlinearity(n, rows) }
"""
SUMS = "fn product(n: u32) -> u32 ensures { result ≡ n } { linear::largest(n) + linear::count(n) + linear::nonlinearity(n) }\n"
FILES = {
    "linear/src/lib.rt": LINEAR,
    "linear/src/listing.rt": LISTING,
    "server/src/lib.rt": SERVER,
    "catalogue/src/lib.rt": CATALOGUE,
    "satmegwo/src/lib.rt": LIBRARY,
    "satmegwo_c/src/lib.rt": EXPORTS,
    "rounds/src/lib.rt": SUMS,
}


def plant(crates, changed):
    """Writes the planted sources; `changed` has other texts for the roots of some crates."""
    for file, source in FILES.items():
        path = crates / file
        path.parent.mkdir(parents=True, exist_ok=True)
        path.write_text(changed.get(file.split("/")[0], source) if path.name == "lib.rt" else source, encoding="utf-8")


def functions_of(changed):
    with tempfile.TemporaryDirectory() as name:
        plant(pathlib.Path(name), changed)
        return sources.of_crates(pathlib.Path(name))


class Listed(unittest.TestCase):
    def differs(self, part, text=PAGE, **changed):
        """The sources are as they may be, and the page is not theirs; the printed one is."""
        functions = functions_of(changed)
        found = calls.page_faults(text, functions)
        self.assertEqual(calls.source_faults(functions), [])
        self.assertEqual(len(found), 1, found)
        self.assertIn(part, found[0])
        self.assertEqual(calls.page_faults(calls.printed(text, functions), functions), [])

    def wrong(self, *parts, **changed):
        """A function has a contract that it may not have, whatever the page says."""
        found = calls.source_faults(functions_of(changed))
        self.assertEqual(len(found), 1, found)
        for part in parts:
            self.assertIn(part, found[0])

    def test_all_listed(self):
        functions = functions_of({})
        self.assertEqual(calls.source_faults(functions) + calls.page_faults(PAGE, functions), [])

    def test_a_call_with_a_requires_fails(self):
        self.wrong("linear::nonlinearity", "`requires`", linear=LINEAR.replace("ensures reply {", "requires { n ≤ 8 }\n    ensures reply {"))

    def test_an_export_with_a_requires_fails(self):
        asks = ("ensures", "requires { n ≤ 8 } ensures")
        self.wrong("satmegwo::satmegwo_nonlinearity", "`requires`", satmegwo=LIBRARY.replace(*asks), satmegwo_c=EXPORTS.replace(*asks))

    def test_a_method_with_a_requires_fails(self):
        self.wrong("Server::step", "`requires`", server=SERVER.replace("ensures", "requires { Sound self } ensures"))

    def test_a_call_without_an_ensures_fails(self):
        self.wrong("Server::step", "no `ensures`", server=SERVER.replace("ensures { ServerStepped self result } ", ""))

    def test_an_export_without_an_ensures_fails(self):
        lost = ("ensures { result ≡ n } ", "")
        self.wrong("satmegwo::satmegwo_nonlinearity", "no `ensures`", satmegwo=LIBRARY.replace(*lost), satmegwo_c=EXPORTS.replace(*lost))

    def test_an_export_that_is_not_its_librarys_function_fails(self):
        for part, old, new in (
            ("another contract", "result ≡ n", "result ≤ n"),
            ("another contract", "ensures {", "ensures same {"),
            ("another reply", "-> u32", "-> u16"),
            ("other arguments", "rows: &[u32]", "rows: &mut [u32]"),
            ("another body", "satmegwo_nonlinearity(n, rows)", "satmegwo_nonlinearity(n, &rows[1..])"),
            ("another body", "{ satmegwo::", "{ linear::"),
            ("another body", "{ satmegwo::satmegwo_nonlinearity(n, rows) }", "{ let r = satmegwo::satmegwo_nonlinearity(n, rows); r }"),
        ):
            self.assertIn(old, EXPORTS)
            self.wrong("satmegwo_c::satmegwo_nonlinearity", part, satmegwo_c=EXPORTS.replace(old, new))

    def test_an_export_on_several_lines(self):
        functions = functions_of({"satmegwo_c": EXPORTS.replace("(n, rows) }", "(\n        n, rows,\n    ) }")})
        self.assertEqual(calls.source_faults(functions), [])

    def test_an_export_without_a_library_fails(self):
        found = calls.source_faults(functions_of({"satmegwo": LIBRARY.replace("pub ", "")}))
        self.assertEqual(found, ["satmegwo_c::satmegwo_nonlinearity: no function satmegwo_nonlinearity of the library satmegwo is public"])
        self.assertIn("no function satmegwo_nonlinearity", " ".join(calls.source_faults(functions_of({"satmegwo": EXPORTS}))))

    def test_another_function_beside_the_exports_fails(self):
        for more in ("fn part() {}\n", "pub fn part() {}\n"):
            found = calls.source_faults(functions_of({"satmegwo_c": EXPORTS + more}))
            self.assertEqual(found[:1], ["satmegwo_c::part: it is no export, and its crate is linked into C"])

    def test_what_the_sums_call_without_an_ensures_fails(self):
        self.wrong("linear::largest", "no `ensures`", linear=LINEAR.replace("largest(n: u32) -> u32 ensures { result ≡ n }", "largest(n: u32)"))

    def test_a_name_without_a_function(self):
        self.differs("no such `pub fn`", text=PAGE.replace("`nonlinearity`", "`nonlinearity`, `degree`"))

    def test_a_private_function_is_not_listed(self):
        self.differs("no such `pub fn`", text=PAGE.replace("`nonlinearity`", "`nonlinearity`, `private`"))

    def test_a_public_function_that_is_not_listed(self):
        self.differs("linear::more is public", linear=LINEAR + "pub fn more() {}\n")
        run = "impl Server {\n    pub fn run(self) -> Self ensures { ServerRan self result } { self }"
        self.differs("server::Server::run is public", server=SERVER.replace("impl Server {", run))

    def test_a_function_that_is_listed_twice(self):
        self.differs("twice", text=PAGE.replace("`sweep`", "`sweep`, `sweep`"))

    def test_a_function_in_another_section(self):
        self.differs("'Functions between crates that ask nothing'", linear=LINEAR.replace("    requires { n ≤ 8 }\n", ""))
        self.differs("makes it one of 'Calls'", text=PAGE.replace("`nonlinearity`, ", "").replace("`spectra`", "`spectra`, `nonlinearity`"))
        self.differs("makes it one of 'Calls'", linear=LINEAR.replace("result ≡ first (checks n)", "said_written result ≡ n"))

    def test_a_contract_that_names_no_outcome_is_no_call(self):
        self.differs("'Functions between crates that ask nothing'", catalogue=CATALOGUE.replace("Handed catalogue.now result", "result ≡ catalogue.now"))

    def test_what_the_sums_no_longer_call(self):
        self.differs("'Functions between crates that ask nothing'", rounds=SUMS.replace("linear::largest(n) + ", ""))
        self.differs("'Functions between crates that ask something'", rounds=SUMS.replace(" + linear::count(n)", ""))

    def test_what_the_sums_begin_to_call(self):
        self.differs("'Functions that the sums of boxes call'", rounds=SUMS.replace("linear::largest(n)", "linear::largest(n) + linear::sweep(n)"))

    def test_an_export_is_no_call(self):
        self.differs("'Functions between crates that ask nothing'", satmegwo_c="")

    def test_another_order(self):
        self.differs("another order or form", text=PAGE.replace("`sweep`, `listing::measure`", "`listing::measure`, `sweep`"))

    def test_a_section_of_another_name_fails(self):
        with self.assertRaises(ValueError):
            calls.listed(PAGE.replace("## Calls from C", "## Exports"))

    def test_a_section_that_is_missing(self):
        found = calls.page_faults(PAGE.partition("## Calls from C")[0], functions_of({}))
        self.assertEqual(sum("a section is missing" in fault for fault in found), 4)

    def test_the_sentences_stay(self):
        empty = "".join(line for line in PAGE.splitlines(keepends=True) if not line.startswith("- "))
        self.assertEqual(calls.printed(empty, functions_of({})), PAGE)

    def test_long_lists_go_on_in_a_line_of_their_crate(self):
        lines = calls.entries([("linear", f"function_{place}") for place in range(30)] + [("masks", "last")])
        self.assertGreater(len(lines), 2)
        self.assertTrue(all(len(line) <= calls.WIDEST for line in lines))
        named = [name for line in lines for name in calls.NAME.findall(calls.ENTRY.match(line)[2])]
        self.assertEqual(named, [f"function_{place}" for place in range(30)] + ["last"])
        self.assertEqual({calls.ENTRY.match(line)[1] for line in lines[:-1]}, {"linear"})

    def test_the_contracts(self):
        held = [("catalogue", "fetch"), ("linear", "nonlinearity"), ("linear", "write_text"), ("server", "Server::step"), ("satmegwo", "satmegwo_nonlinearity")]
        self.assertEqual(calls.contracts(PAGE), held)
        self.assertEqual(calls.believed(PAGE), held + [("linear", "largest"), ("linear", "count")])

    def test_the_type_of_a_method(self):
        text = "impl<'a> Reader<'a> { pub fn next(self) -> Self { self } }\npub fn after() {}\n"
        self.assertEqual([function.name for function in sources.functions("linear", "", sources.tokens(text))], ["Reader::next", "after"])

    def test_what_a_function_takes(self):
        found = {function.name: function.takes for function in sources.functions("linear", "", sources.tokens(LINEAR))}
        self.assertEqual(found["sweep"], ["found", "values"])
        self.assertEqual(found["nonlinearity"], ["n", "rows"])


class Command(unittest.TestCase):
    def ran(self, text, *options, **changed):
        """The page after the script has run on it, the script's status, and what it printed."""
        with tempfile.TemporaryDirectory() as name:
            page, crates = pathlib.Path(name) / "CALLS.md", pathlib.Path(name) / "crates"
            page.write_text(text, encoding="utf-8")
            plant(crates, changed)
            run = subprocess.run([sys.executable, "-B", calls.__file__, *options, page, crates], capture_output=True, text=True)
            return page.read_text(encoding="utf-8"), run.returncode, run.stdout + run.stderr

    def test_the_page_is_compared_and_left_as_it_is(self):
        self.assertEqual(self.ran(PAGE)[:2], (PAGE, 0))
        changed = PAGE.replace("`sweep`, ", "")
        page, status, said = self.ran(changed)
        self.assertEqual((page, status), (changed, 1))
        self.assertIn("linear::sweep is public and not in the list", said)
        self.assertIn("--write", said)

    def test_the_page_is_written(self):
        self.assertEqual(self.ran(PAGE.replace("`sweep`, ", ""), "--write")[:2], (PAGE, 0))

    def test_nothing_is_written_where_a_call_has_a_requires(self):
        changed = PAGE.replace("`sweep`, ", "")
        page, status, said = self.ran(changed, "--write", server=SERVER.replace("ensures", "requires { Sound self } ensures"))
        self.assertEqual((page, status), (changed, 1))
        self.assertIn("Server::step is a call, and has a `requires`", said)


if __name__ == "__main__":
    unittest.main()
