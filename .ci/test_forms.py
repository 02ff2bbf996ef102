#!/usr/bin/env python3
"""Tests of forms.py on copies of this repository's sources, each with one wrong change in it: a program of another form that would give the same values
is found, and so is a form that stands beside its function and is not used."""
import pathlib
import unittest

import forms

FILES = forms.read(pathlib.Path(__file__).resolve().parent.parent)
WALSH, LINEAR, BOOLEAN = "crates/walsh/src/lib.rt", "crates/linear/src/lib.rt", "crates/boolean/src/lib.rt"
FIXED, FETCH, SHEET, DESIGN = "crates/walsh/src/fixed.rt", "crates/catalogue/src/lib.rt", "crates/sheet/src/lib.rt", "crates/design/src/lib.rt"
ROUNDS, XOR = "crates/rounds/src/lib.rt", "crates/differential/src/lib.rt"
NARROW, LISTING = "crates/differential/src/narrow.rt", "crates/differential/src/listing.rt"
HALF = """        let h = table.len() / 2;
        descend(fixed, n - 1, &table[..h], &mut out[..h]);
        descend(fixed, n - 1, &table[h..], &mut out[h..]);
        butterfly(out, h);
"""
STOPPED = """    let Ok(FoundCell { count, a, beta }) = answer else {
        return None;
    };
    Some(texts::put_line(text, at, b"xor", &[count, a, beta]))
"""


class Forms(unittest.TestCase):
    def found(self, key, file, old, new, part=""):
        self.assertIn(old, FILES[file])
        found = forms.faults(FILES | {file: FILES[file].replace(old, new)})
        self.assertTrue(found, f"{new} is not found")
        for fault in found:
            self.assertIn(key, fault.partition(":")[0])
        self.assertTrue(any(part in fault for fault in found), found)

    def test_this_tree(self):
        self.assertEqual(forms.faults(FILES), [])

    def test_fetching_another_slice(self):
        self.found("01.forms.1", FETCH, "    &catalogue[start..end]\n", "    copied(catalogue, start, end)\n", "returns copied")
        self.found("01.forms.1", FETCH, "return &catalogue[0..0];", "return empty();", "returns empty")

    def test_fetching_what_another_lifetime_has(self):
        self.found("01.forms.1", FETCH, "index: u32) -> &'a [u8]", "index: u32) -> &'static [u8]", "gives")

    def test_the_magnitude_by_subtraction(self):
        self.found("01.forms.2", BOOLEAN, "-(v + 1)", "0 - (v + 1)", "boolean::magnitude")

    def test_the_sign_from_elsewhere(self):
        self.found("01.forms.2", LINEAR, "boolean::sign_bit(values[w])", "sign_at(rows, w)", "linear::with_spectrum")
        self.found("01.forms.2", ROUNDS, "boolean::sign_bit(values[place])", "sign_at(values, place)", "rounds::highest")

    def test_a_magnitude_found_after_the_loop(self):
        self.found("01.forms.2", WALSH, "largest.max(boolean::magnitude(*value))", "largest.max(size_of(*value))", "walsh::largest_magnitude")

    def test_unsigned_values(self):
        self.found("01.forms.2", WALSH, "table: &[u8], out: &mut [i32]) -> Result", "table: &[u8], out: &mut [u32]) -> Result", "walsh::spectrum")

    def test_the_transform_by_the_definition(self):
        start, end = "    if n < 3 {\n        by_definition(n, table, out);\n    } else if n == 3 {", "    by_definition(n, table, out);\n    if n == 3 {"
        self.found("01.forms.3", WALSH, start, end, "by its width alone")

    def test_the_definition_up_to_width_8(self):
        self.found("01.forms.3", WALSH, "if n < 3 {", "if n < 9 {", "the first test")

    def test_the_transform_without_itself(self):
        self.found("01.forms.3", WALSH, HALF, "        by_definition(n, table, out);\n", "walsh::descend above")
        self.found("01.forms.3", WALSH, HALF, HALF.replace("descend(fixed, n - 1, &table[h..], &mut out[h..])", "by_definition(n - 1, &table[h..], &mut out[h..])"))

    def test_the_width_falls_by_two(self):
        self.found("01.forms.3", WALSH, HALF, HALF.replace("n - 1", "n - 2"))
        self.found("01.forms.3", WALSH, "descend(fixed, 3, &table[..h]", "descend(fixed, 2, &table[..h]")

    def test_copies_of_the_halves(self):
        self.found("01.forms.4", WALSH, HALF, HALF.replace("&table[h..]", "&upper"))
        self.found("01.forms.6", WALSH, HALF, HALF.replace("&mut out[h..]", "&mut upper"))

    def test_a_transform_that_no_call_uses(self):
        self.found("01.forms.3", WALSH, "    descend(&fixed, n, table, out);\n", "    by_definition(n, table, out);\n", "walsh::spectrum has no")
        self.found("01.forms.3", LINEAR, "    masks::write_component(rows, c, table);\n    walsh::descend(fixed, n, table, out);", "    other(rows, c, table, out);")

    def test_a_table_that_is_no_constant(self):
        self.found("01.forms.5", FIXED, "const FIXED", "static FIXED", "no constant")
        self.found("01.forms.5", FIXED, "const FIXED: [i16; 2048]", "const FIXED: [u16; 2048]", "no constant")

    def test_a_shorter_table(self):
        first = "    4, // function 0"
        self.found("01.forms.5", FIXED, first, first.replace("4, ", ""), "2047 entries")
        self.found("01.forms.5", FIXED, first, first.replace("4", "2 + 2"), "is no number")

    def test_a_table_that_is_not_read(self):
        self.found("01.forms.5", WALSH, "copy_four(fixed, first, out, 0);", "by_definition(3, table, out);", "walsh::by_table")

    def test_an_answer_taken_apart_otherwise(self):
        opened = "let Ok(FoundCell { count, a, beta }) = answer else {"
        self.found("01.forms.7", SHEET, STOPPED, STOPPED.replace(opened, "if let Err(_) = answer {"), "write_xor")
        self.found("01.forms.7", SHEET, STOPPED, STOPPED.replace(opened, "let Some(FoundCell { count, a, beta }) = answer else {"), "write_xor")

    def test_a_line_before_the_answer_is_taken_apart(self):
        call = "    let answer = differential::largest_cell(n, m, rows);\n"
        line = '    texts::put_line(text, at, b"xor", &[0]);\n'
        self.found("01.forms.7", SHEET, call, call + line, "write_xor")
        self.found("01.forms.7", SHEET, call, line + call, "write_xor")

    def test_a_refused_figure_that_goes_on(self):
        self.found("01.forms.7", SHEET, STOPPED, STOPPED.replace("None", "Some(at)"), "does not stop")
        self.found("01.forms.7", SHEET, STOPPED, STOPPED.replace("return None", "at += 1; return None"), "does not stop")

    def test_a_test_that_is_answered_otherwise(self):
        yes = "    if yes {\n        Some(texts::put_bytes(text, at, b\"complete yes\\n\"))"
        self.found("01.forms.7", SHEET, yes, yes.replace("if yes", "if !yes"), "write_complete")
        self.found("01.forms.7", SHEET, yes, yes.replace("complete yes", "complete no"), "write_complete")
        self.found("01.forms.7", SHEET, yes, "    texts::put_bytes(text, at, b\"complete\");\n" + yes, "write_complete")

    def test_a_line_that_is_not_in_the_list(self):
        old = "    *end = write_sac(n, m, rows, text, *end)?;\n"
        self.found("01.forms.7", SHEET, old, "", "sheet::write_figures")
        self.found("01.forms.7", SHEET, old, old + old, "sheet::write_figures")

    def test_lines_that_are_not_asked_for(self):
        call = "    let _ = write_figures(n, m, rows, text, &mut end);\n"
        self.found("01.forms.7", SHEET, call, "", "sheet::write_lines")

    def test_sums_that_call_what_is_not_published(self):
        self.found("01.forms.8", ROUNDS, "linear::next_peak(", "linear::component_spectrum(", "does not list")
        self.found("02.§4.8", "docs/CALLS.md", "- `walsh`: `spectra`, `largest_magnitude`", "- `walsh`: `descend`, `spectra`, `largest_magnitude`", "do not call it")

    def test_an_analyser_that_stands_on_the_sums(self):
        self.found("01.forms.8", "crates.txt", "linear: boolean", "linear: rounds boolean", "stands on rounds")

    def test_sums_that_read_code(self):
        for module in ("proofs.sweep.Goals", "code.Lts"):
            self.found("01.forms.8", ROUNDS, "ghost use Rattle.linear.", f"ghost use Rattle.linear.{module}.{{sweep}};\nghost use Rattle.linear.", "neither")

    def test_a_method_that_borrows(self):
        self.found("01.forms.9", DESIGN, "pub fn swap(self, ", "pub fn swap(&mut self, ", "by value")
        self.found("01.forms.9", DESIGN, "pub fn mark(self, k: u32) -> Tuned", "pub fn mark(self, k: u32) -> Result<(), Refusal>", "gives")
        self.found("01.forms.9", DESIGN, "pub struct Tuned {\n    pub design: Design,", "pub struct Tuned {\n    pub rows: [u32; 256],")

    def test_a_case_without_a_line(self):
        for file, case in (("linear/specs/Calls", "least_pair (Err e)"), ("linear/specs/Calls", "least_pair (Ok found)"), ("linear/specs/Parts", "part (Ok None)"),
                           ("server/specs/Calls", "asked (Ok (Some found))"), ("refusals/specs/Table", "verdict (Err e)")):
            name, _, pattern = case.partition(" ")
            self.found("01.forms.10", f"crates/{file}.antt", f"said_{case} =", f"-- {pattern} =", f"said_{name} has no line for {pattern[1:].split()[0]}")

    def test_a_type_of_answer_that_nothing_states(self):
        said = "said_raising_swap : Result (Option Raise) Refusal → Reply"
        self.found("01.forms.10", "crates/swaps/specs/Calls.antt", said, said.replace("(Option Raise)", "Raise"), "what Result (Option Raise) Refusal of swaps says")
        said = "said_cell_list : Result ℕ Refusal → Reply"
        self.found("01.forms.10", "crates/differential/specs/Calls.antt", said, said.replace("Result ℕ Refusal", "ℕ"), "what Result ℕ Refusal of differential says")
        said = "said_written : Result ⊤ Refusal → Reply"
        self.found("01.forms.10", "crates/refusals/specs/Table.antt", said, said.replace("Result ⊤ Refusal", "ℕ"), "what Result ⊤ Refusal of walsh says")

    def test_an_answer_of_another_shape(self):
        self.found("01.forms.10", XOR, "-> Result<FoundCell, Refusal>", "-> Option<(FoundCell, Refusal)>", "no `Result`")

    def test_an_enum_that_holds_a_refusal(self):
        for enum in ("pub enum Cell {\n    Reached(u32),\n    Declined(Refusal),\n}\n", "enum Cell<T> {\n    Reached(T),\n    Declined(refusals::Refusal),\n}\n"):
            self.found("01.forms.10", XOR, "mod listing;\n", "mod listing;\n" + enum, "Cell of differential")

    def test_a_sweep_at_the_end(self):
        risen = "        running = rise_alone(differences, y, buckets, running);\n    }\n    running\n"
        swept = "        count_alone(differences, y, buckets);\n    }\n    largest_bucket(buckets)\n"
        self.found("02.§5.1", NARROW, risen, swept, "largest_alone")

    def test_a_sweep_beside_the_running_value(self):
        risen = "        running = after.running;\n    }\n    running - row\n"
        self.found("02.§5.1", XOR, risen, risen.replace("running - row", "largest_bucket(buckets) - row"), "largest_risen calls largest_bucket")
        more = "    }\n    let mut k = 0;\n    while k < buckets.len() {\n        k += 1;\n    }\n    running - row\n"
        self.found("02.§5.1", XOR, risen, risen.replace("    }\n    running - row\n", more), "2 loops")

    def test_a_rise_that_does_not_compare(self):
        self.found("02.§5.1", XOR, "        running: running.max(standing),\n", "        running: standing,\n", "differential::rise")
        self.found("02.§5.1", NARROW, "    running.max(standing)\n", "    standing\n", "rise_alone")

    def test_a_running_value_that_is_not_kept(self):
        old = "        cells = cells_after(running, after.standing, cells);\n        running = after.running;\n"
        self.found("02.§5.1", LISTING, old, old.replace("        running = after.running;\n", ""), "measure_row")

    def test_another_way_to_the_largest_cell(self):
        self.found("02.§5.1", NARROW, "largest_alone(pairs, buckets);", "counted_alone(pairs, buckets);", "sweep_narrow")

    def test_a_function_that_is_gone(self):
        self.found("02.§5.1", NARROW, "fn rise_alone(", "fn raise(", "no function differential::narrow::rise_alone")

    def test_a_row_without_a_form(self):
        page = "docs/PROMISES.md"
        self.found("02.§2.6 is only in one", page, "| 02.§2.6 |", "| 02.§2.6 | a | b | c | none: a form, held by `.ci/forms.py` |\n| 02.§2.6b |")
        rows = [line for line in FILES[page].splitlines() if line.startswith("| 02.§5.1 |")]
        self.found("02.§5.1 is only in one", page, rows[0], rows[0].replace(", held by `.ci/forms.py`", ""))


if __name__ == "__main__":
    unittest.main()
