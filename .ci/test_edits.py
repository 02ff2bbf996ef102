#!/usr/bin/env python3
"""Tests of edits.py, on planted sources and logs: a survivor, a refusal for another reason, an edit that changes nothing, or a contract with too
few wrong programs must not pass."""
import pathlib
import tempfile
import unittest

import arguments
import edits

SOURCE = """fn add_step(m: u32, k: u32) -> u32 { k + 1 }
fn next(m: u32, last: u32, c: u32) -> u32 { add_step(m, last) + kit::wide(c) }
fn sweep(n: u32) -> u32 { let mut c = 0; while c < masks { c = next(n, c, other(n)); } c }
fn first_place(n: u32) -> u32 { let w = 0; w }
fn loops(m: u32, n: u32) -> u32 { if n == 0 { 0 } else { loops(m, n - 1) } }
fn held(m: u32, n: u32) -> Held { Held { m: n, n } }
"""
SPECS = "least : a\n"
EDIT = """# two wrong programs
refused: sweep
file: src/lib.rt
old: c < masks
new: c < 2
refused: first_place
old: w = 0
new: w = 1
"""
LAW = "# a definition\nlaw: least\nfile: specs/A.antt\nold: : a\nnew: : b\n"
SWEEP = "./proofs/sweep/Proof.antt:31:5: error: `loop-again`: `omega`: the goal fails at c = 3"
OTHER = SWEEP.replace("loop-again", "next-requires")
PLACE = "./proofs/first_place/Proof.antt:12:1: error: `returns`: `search`: no proof of"
REFUSED = ["fn linear::sweep: not proved", "fn linear::first_place: not proved"]
AT = "./proofs/sweep/Proof.antt:31:5: error: "


def program_of(top, sources):
    for file, text in sources.items():
        path = top / "crates" / file
        path.parent.mkdir(parents=True, exist_ok=True)
        path.write_text(text, encoding="utf-8")
    return top / "crates"


class Held(unittest.TestCase):
    def judged(self, log, edit=EDIT, more=()):
        with tempfile.TemporaryDirectory() as name:
            top = pathlib.Path(name)
            files = {"linear/src/lib.rt": SOURCE, "linear/specs/A.antt": SPECS, "linear/must-fail/both.edit": edit}
            crates = program_of(top, files | {f"linear/must-fail/{stem}.edit": text for stem, text in more})
            for stem in ["both"] + [stem for stem, _ in more]:
                if log is not None:
                    (top / "logs/linear" / stem).mkdir(parents=True)
                    (top / "logs/linear" / stem / ".log").write_text("\n".join(log) + "\n", encoding="utf-8")
            return edits.judged(crates, top / "logs")

    def faults(self, log, edit=EDIT):
        held, faults = self.judged(log, edit)
        return len(held), faults

    def one_fault(self, part, log, edit=EDIT):
        found = self.faults(log, edit)[1]
        self.assertEqual(len(found), 1, found)
        self.assertIn(part, found[0])

    def unfit(self, message):
        self.one_fault("no fact", [AT + message, OTHER, PLACE] + REFUSED)

    def fits(self, message):
        self.assertEqual(self.faults([AT + message, PLACE] + REFUSED), (2, []))

    def test_both_refused(self):
        self.assertEqual(self.faults([SWEEP, PLACE] + REFUSED), (2, []))

    def test_a_survivor_fails(self):
        total, faults = self.faults([SWEEP, REFUSED[0], "fn linear::first_place: proved"])
        self.assertEqual((total, len(faults)), (1, 1))
        self.assertIn("first_place", faults[0])

    def test_a_name_that_the_log_lacks_fails(self):
        self.one_fault("does not name it", [SWEEP, REFUSED[0]])

    def test_refused_by_a_callee_only_fails(self):
        log = [PLACE, "fn linear::sweep: not proved; it calls `linear::first_place`, which is not proved", REFUSED[1]]
        self.one_fault("no error of its own", log)

    def test_no_proof_found_is_a_refusal(self):
        log = [PLACE, "fn linear::sweep: no proof: expected answers in ./proofs/sweep/Answers.antt; `search` did not prove `returns-then-c-ne0`", REFUSED[1]]
        self.assertEqual(self.faults(log), (2, []))

    def test_no_measure_is_no_refusal(self):
        log = [PLACE, "fn linear::sweep: no proof: expected a measure in ./proofs/sweep/Invariants.antt", REFUSED[1]]
        self.one_fault("no error of its own", log)

    def test_an_answer_that_fails_is_a_refusal(self):
        for file in ("Answers", "Invariants"):
            self.assertEqual(self.faults([SWEEP.replace("Proof", file), PLACE] + REFUSED), (2, []))

    # ---- which error counts
    def test_an_outcome_counts_though_it_is_not_first(self):
        unfit = AT + "`add-c`: `rw`: no occurrence of `c`"
        for goal in ("returns", "returns-3", "returns-then-c-ne0", "loop-holds", "loop_again_2", "loop-c-preserved", "loop-c-init-2"):
            self.assertEqual(self.faults([unfit, SWEEP.replace("loop-again", goal), PLACE] + REFUSED), (2, []))

    def test_no_other_goal_counts_after_an_error_that_is_no_fact(self):
        for goal in ("next-requires", "loop_less", "loop-c-smaller", "returned", "sweep_spec"):
            self.one_fault("no fact", [AT + "`add-c`: `rw`: no occurrence of `c`", SWEEP.replace("loop-again", goal), PLACE] + REFUSED)

    def test_a_first_error_in_another_goal_counts(self):
        unfit = AT + "`returns`: `mask` was not admitted"
        self.assertEqual(self.faults([OTHER, unfit, PLACE] + REFUSED), (2, []))

    def test_no_outcome_counts_after_code_of_another_shape(self):
        self.one_fault("no fact", [AT + "`add-c`: `tie` has no `Need-add-c` that can be named from here", SWEEP, PLACE] + REFUSED)
        self.assertEqual(self.faults([SWEEP, AT + "`add-c`: `tie` has no `Need-add-c` that can be named from here", PLACE] + REFUSED), (2, []))

    def test_all_errors_unfit_fails(self):
        self.one_fault("no fact", [AT + "`returns`: `mask` was not admitted", AT + "`loop-again`: `rw`: no occurrence of `c`", PLACE] + REFUSED)

    # ---- errors that are no facts
    def test_a_proof_that_does_not_fit_fails(self):
        self.unfit("`add-c`: `tie` has no `Need-add-c` that can be named from here")
        self.unfit("`add-c`: `tie` has no `Need-add-c`\n  that can be named from here")

    def test_a_place_that_has_moved_fails(self):
        self.unfit("`returns`: record `linear.sweep.Lts.After-clear` has no field `next`")

    def test_a_message_may_be_broken_anywhere(self):
        self.unfit("`returns`: record `linear.sweep.Lts.After-slice_known2`\n  has no field `limit_of`")
        self.unfit("`returns`: expected type `A`, but this has\n    type `tie.Need-add-c`")

    def test_a_simp_without_an_instance_fails(self):
        self.unfit("`returns`: `simp`: no equation of the list has an\n  instance in the goal `r ≡ limit_of m`")

    def test_what_is_not_shown_fails(self):
        self.unfit("`worked`: expected type `T (right cases)`, but this has type `Prim.Unit {?ℓ0}`\n  what the two types compute to is not shown, because one could not be computed (expected: computing it took more than 200000 steps)")
        self.unfit("`worked`: stopped at the step limit (50000000 steps a task, the default)")

    def test_what_is_printed_though_not_computed_is_a_fact(self):
        self.fits("`returns`: as printed, the two types differ only where one has `table` (expected) and the other has `rule` (found)\n  what the two types compute to is not shown, because neither could be computed (..)")

    def test_a_test_of_another_form_fails(self):
        self.unfit("`returns`: expected type `mathlib.Core.Path.◌≡◌ {A = Prim.Native.Nat.ℕ} (?11 c) 1`, but this has type `Prim.Native.Nat.◌≤◌ (get 2 m) 2`")
        self.unfit("`loop-again`: expected type `Prim.Native.Nat.◌<◌ (?7 c) (?8 c)`,\n  but this has type `Prim.Native.Nat.◌≤◌ (get 8 x) (get 2 x)`")
        self.unfit("`returns`: expected type `a ≡ b → Prim.⊥` but this has type `Prim.Native.Nat.◌<◌ a b`")
        self.unfit("`returns`: expected type `Prim.Native.Nat.◌≤◌ a b` but this has type `Prim.Native.Nat.◌<◌ a b`")

    def test_another_number_in_the_same_relation_is_a_fact(self):
        self.fits("`returns`: expected type `Prim.Native.Nat.◌≤◌ (?7 c) b` but this has type `Prim.Native.Nat.◌≤◌ a (b + 1)`")
        self.fits("`returns`: expected type `box_file x ≡ ?12 c` but this has type `refusal (f (a < b)) ≡ y`")

    def test_a_weaker_relation_is_a_fact(self):
        self.fits("`returns`: expected type `Prim.Native.Nat.◌<◌ a b` but this has type `Prim.Native.Nat.◌≤◌ a b`")

    def test_a_denied_test_is_a_fact(self):
        self.fits("`returns`: expected type `◌≡◌ {A = Prim.Native.Nat.ℕ} (?21 c) 1 → Prim.⊥`, but this has type `here ≡ 1`")

    # ---- laws
    def test_a_law(self):
        error = "./proofs/Theorems.antt:3:1: error: `least`: expected `a`, but this is `b`"
        self.assertEqual(self.faults([error], LAW), (1, []))
        self.one_fault("no error is in its proof", [SWEEP], LAW)

    def test_a_law_in_the_specs(self):
        error = "./specs/Worked.antt:3:1: error: `least`: expected type `T (right cases)`, but this has type `Unit`"
        self.assertEqual(self.faults([error], LAW), (1, []))
        self.one_fault("no error", [error.replace("`least`", "`cases`")], LAW)
        self.one_fault("no error", [error.replace("/specs/", "/src/")], LAW)

    def test_a_goal_of_a_function_is_no_law(self):
        self.one_fault("no error", ["./proofs/sweep/Proof.antt:3:1: error: `least`: expected `a`, but this is `b`"], LAW)

    def test_a_law_in_a_file_named_as_that_of_a_function(self):
        self.assertEqual(self.faults(["./proofs/Answers.antt:3:1: error: `least`: expected `a`, but this is `b`"], LAW), (1, []))

    # ---- edits
    def test_an_edit_that_names_nothing_fails(self):
        self.one_fault("names nothing", [SWEEP], "file: src/lib.rt\nold: w = 0\nnew: w = 1\n")

    def test_an_edit_that_names_a_function_twice_fails(self):
        self.one_fault("twice", [SWEEP, PLACE] + REFUSED, EDIT + "refused: sweep\nold: other(n)\nnew: other(1)\n")

    def test_an_edit_without_a_log_fails(self):
        self.assertEqual(len(self.faults(None)[1]), 2)

    def test_a_text_that_is_not_there_once_fails(self):
        self.one_fault("does not stand", [SWEEP, PLACE] + REFUSED, EDIT.replace("old: c < masks", "old: c < mask "))
        self.one_fault("does not stand", [SWEEP, PLACE] + REFUSED, EDIT.replace("old: c < masks", "old: c"))

    def test_an_edit_that_changes_nothing_fails(self):
        self.one_fault("changes nothing", [SWEEP, PLACE] + REFUSED, EDIT.replace("new: c < 2", "new: c  <  masks"))

    def test_an_argument_that_nobody_reads_fails(self):
        unread = EDIT.replace("old: c < masks\nnew: c < 2", "old: next(n, c, other(n))\nnew: next(32, c, other(n))")
        self.one_fault("changes nothing", [SWEEP, PLACE] + REFUSED, unread)

    def test_an_argument_that_is_read(self):
        read = EDIT.replace("old: c < masks\nnew: c < 2", "old: next(n, c, other(n))\nnew: next(n, c, other(32))")
        self.assertEqual(self.faults([SWEEP, PLACE] + REFUSED, read), (2, []))

    # ---- how many there are
    def test_two_for_each_contract(self):
        log = [SWEEP, PLACE] + REFUSED
        again = EDIT.replace("new: c < 2", "new: c < 3").replace("new: w = 1", "new: w = 2")
        both = [("linear", "sweep"), ("linear", "first_place")]
        self.assertEqual(edits.thin(both, self.judged(log, EDIT, [("again", again)])[0]), [])
        self.assertEqual(edits.thin(both, self.judged(log)[0]), ["linear::sweep has 1", "linear::first_place has 1"])
        self.assertEqual(edits.thin([("linear", "degree")], self.judged(log)[0]), ["linear::degree has 0"])

    def test_the_same_change_twice_is_one(self):
        again = EDIT.replace("new: w = 1", "new: w = 2")
        held = self.judged([SWEEP, PLACE] + REFUSED, EDIT, [("again", again)])[0]
        self.assertEqual(edits.thin([("linear", "sweep"), ("linear", "first_place")], held), ["linear::sweep has 1"])

    def test_a_refusal_that_does_not_hold_is_not_counted(self):
        again = EDIT.replace("new: c < 2", "new: c < 3").replace("new: w = 1", "new: w = 2")
        held = self.judged([SWEEP, REFUSED[0], "fn linear::first_place: proved"], EDIT, [("again", again)])[0]
        self.assertEqual(edits.thin([("linear", "sweep"), ("linear", "first_place")], held), ["linear::first_place has 0"])

    def test_a_law_is_no_wrong_program(self):
        error = "./proofs/Theorems.antt:3:1: error: `least`: expected `a`, but this is `b`"
        self.assertEqual(edits.thin([("linear", "least")], self.judged([error], LAW)[0]), ["linear::least has 0"])


class Read(unittest.TestCase):
    def unread(self, sources):
        with tempfile.TemporaryDirectory() as name:
            program = arguments.Program(program_of(pathlib.Path(name), sources))
        return {
            f"{'::'.join(key)} {parameter}"
            for key, (_, function) in program.known.items()
            for place, parameter in enumerate(function.takes)
            if (key, place) not in program.read
        }

    def test_what_is_only_handed_on_is_not_read(self):
        names = ("add_step m", "next m", "first_place n", "loops m", "held m")
        self.assertEqual(self.unread({"linear/src/lib.rt": SOURCE}), {f"linear::{name}" for name in names})

    def test_other_crates_and_files(self):
        above = "use masks::step;\nfn sweep(m: u32, n: u32) -> u32 { masks::step(m, 1) + listing::one(n) + step(m, 2) }\n"
        listing = "use crate::sweep;\nfn one(n: u32) -> u32 { 1 }\nfn two(m: u32) -> u32 { sweep(m, 1) }\n"
        sources = {"masks/src/lib.rt": "pub fn step(m: u32, k: u32) -> u32 { k }\n", "linear/src/lib.rt": above, "linear/src/listing.rt": listing}
        self.assertEqual(
            self.unread(sources), {"masks::step m", "linear::sweep m", "linear::sweep n", "linear::listing::one n", "linear::listing::two m"}
        )

    def test_what_a_printed_text_names_is_read(self):
        printed = 'fn show<W: Write>(out: &mut W, v: u32, w: u32) -> R { write!(out, " {v}") }\nfn all(m: u32, n: u32) -> R { show(out, m, n) }\n'
        self.assertEqual(self.unread({"linear/src/lib.rt": printed}), {"linear::show w", "linear::all n"})

    def test_what_is_not_known_reads_all(self):
        self.assertEqual(self.unread({"linear/src/lib.rt": "fn sweep(m: u32, s: S) -> A { u32::count_ones(m); s.put(m); A::Found(s) }\n"}), set())


if __name__ == "__main__":
    unittest.main()
