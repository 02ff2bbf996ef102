#!/usr/bin/env python3
"""Tests of tied.py on a planted page and planted sources: each fault is found, and what is right is not taken for one."""
import unittest

import tied

PAGE = """# What ties each definition

The word **behind the calls** stands here, and `nothing_of_this` is no row.

## `linear`

| definition | what breaks |
|---|---|
| `distance` | `least_within`; `cases` 3 |
| `Found`, `pairs` | text of every `_within` statement; `distance`, field `so_far`, `linear::sweep` in `linear/src` |
| `best` | `least_within` |
| `rank` | behind the calls |
| `Ranked` | behind the calls: laws alone |

## `claims`

| definition | what breaks |
|---|---|
| `cases` | text of `least_within` |
"""
TOPIC = """-- a topic; `rank` in a comment is no use of it
use Rattle.std.specs.Prelude.{ℕ}

unfoldable pub distance : (n w : ℕ) → ℕ
distance n w = n

pub record Found (n : ℕ) : Type 0 where
  pub so_far : ℕ
  pub rank : ℕ

module _ {C : Type 0} where
  unfoldable pub best : (b : C) → C
  best b = b
"""
PAIRS = """use Rattle.linear.specs.Topic.{distance}

abbrev pub pairs : ℕ → ℕ
pairs n = distance n n
"""
LAWS = """-- for laws
abbrev pub rank : (c : ℕ) → ℕ
rank c = c

pub record Ranked (c : ℕ) : Type 0 where
  pub is : rank c ≡ c
"""
WORK = """pub record Swept : Type 0 where
"""
WORKED = """use Rattle.claims.specs.Outcomes.{Case}

abbrev pub cases : List Case
cases = []
"""
DEMAND = """use Rattle.linear.specs.Topic.{distance}
use Rattle.linear.specs.Laws as laws

module _ (n : ℕ)
    (rank : ℕ) where
  -- a sentence
  pub least_within : (w : ℕ)
      → w ≤ distance n w
  unfolding distance
  least_within w = laws.rank w
"""
SOURCE = """ghost use Rattle.linear.specs.Topic.{distance};
ghost use Rattle.linear.specs.Laws.{rank};

fn sweep(n: u32) -> u32
    ensures { result ≡ rank n }
{
    n
}

pub fn nonlinearity(n: u32) -> u32
    ensures { result ≡ distance n n }
{
    sweep(n)
}
"""
CALLS = """## Calls
- `linear`: `nonlinearity`
"""
FILES = {
    "crates/linear/specs/Topic.antt": TOPIC,
    "crates/linear/specs/Pairs.antt": PAIRS,
    "crates/linear/specs/Laws.antt": LAWS,
    "crates/linear/specs/Work.antt": WORK,
    "crates/linear/specs/Lib.antt": "pub mod Topic\n",
    "crates/linear/src/lib.rt": SOURCE,
    "crates/claims/specs/Worked.antt": WORKED,
    "crates/claims/proofs/Demand3.antt": DEMAND,
    "crates/claims/proofs/Words.antt": "pub of_no_statement : ℕ\nof_no_statement = 0\n",
    "docs/CALLS.md": CALLS,
}


def changed(file, old, new):
    assert old in FILES[file]
    return FILES | {file: FILES[file].replace(old, new)}


def page(old, new):
    assert old in PAGE
    return PAGE.replace(old, new)


class Tied(unittest.TestCase):
    def found(self, text=PAGE, files=FILES):
        return tied.faults(text, files)

    def test_what_is_right_passes(self):
        self.assertEqual(self.found(), [])

    def test_what_is_read(self):
        held = tied.Sources(FILES)
        self.assertEqual(sorted(held.homes), ["Found", "Ranked", "best", "cases", "distance", "pairs", "rank"])
        self.assertEqual(held.statements, {"least_within"})
        self.assertEqual(held.lists, {"cases"})

    def test_a_definition_without_a_row(self):
        self.assertEqual(self.found(page("| `best` | `least_within` |\n", "")), ["linear: best has no row"])
        self.assertEqual(len(self.found(files=changed("crates/linear/specs/Pairs.antt", "abbrev pub pairs", "pub data Kind : Type 0 where\nabbrev pub pairs"))), 1)

    def test_a_row_whose_definition_is_gone_or_elsewhere(self):
        self.assertEqual(self.found(page("`Found`, `pairs`", "`Found`, `pairs`, `gone`")), ["linear: Found, pairs, gone: gone is no definition of linear"])
        self.assertEqual(len(self.found(page("| `cases` |", "| `cases`, `Swept` |"))), 1)
        moved = page("| `best` | `least_within` |\n", "").replace("| `cases` |", "| `cases`, `best` |")
        self.assertEqual(self.found(moved), ["claims: cases, best: best is no definition of claims"])

    def test_two_rows(self):
        self.assertEqual(self.found(page("| `Found`, `pairs` |", "| `Found`, `pairs`, `best` |")), ["best stands in two rows"])

    def test_a_statement_that_is_not_there(self):
        self.assertEqual(len(self.found(page("| `best` | `least_within` |", "| `best` | `least_without` |"))), 2)
        self.assertEqual(len(self.found(page("| `best` | `least_within` |", "| `best` | `of_no_statement`; `cases` 1 |"))), 1)
        self.assertEqual(len(self.found(page("`_within`", "`_without`"))), 2)
        self.assertEqual(len(self.found(page("`cases` 3", "`bounds` (3)"))), 1)

    def test_nothing_ties_it(self):
        self.assertEqual(len(self.found(page("| `best` | `least_within` |", "| `best` | NOTHING |"))), 1)
        self.assertEqual(len(self.found(page("| `best` | `least_within` |", "| `best` | as `distance` has it |"))), 1)
        self.assertEqual(self.found(page("| `best` | `least_within` |", "| `best` | a program alone, no call |")), [])

    def test_what_is_not_behind_the_calls(self):
        behind = page("| `distance` | `least_within`; `cases` 3 |", "| `distance` | behind the calls |")
        self.assertEqual(len(self.found(behind)), 3)  # a statement, the contract of a call, and a definition before it
        users = " ".join(self.found(behind))
        for user in ("the statement least_within", "the contract of linear::nonlinearity", "the definition pairs"):
            self.assertIn(user, users)

    def test_what_is_behind_the_calls_is_used_by_what_is_not(self):
        self.assertEqual(len(self.found(page("| `Ranked` | behind the calls: laws alone |", "| `Ranked` | `least_within` |"))), 1)
        stated = changed("crates/claims/proofs/Demand3.antt", "→ w ≤ distance n w", "→ w ≤ laws.rank w")
        self.assertEqual(len(self.found(files=stated)), 1)
        called = changed("crates/linear/src/lib.rt", "result ≡ distance n n", "result ≡ rank n")
        self.assertEqual(len(self.found(files=called)), 1)
        renamed = changed("crates/linear/src/lib.rt", "Laws.{rank}", "Laws.{rank as order}")
        renamed["crates/linear/src/lib.rt"] = renamed["crates/linear/src/lib.rt"].replace("rank n", "order n").replace("distance n n", "order n")
        self.assertEqual(len(self.found(files=renamed)), 1)

    def test_what_a_program_prints_is_before_no_reader(self):
        files = FILES | {"crates/shown/specs/Printed.antt": "use Rattle.linear.specs.Laws.{rank}\n\nabbrev pub line : (c : ℕ) → ℕ\nline c = rank c\n"}
        row = "\n## `shown`\n\n| definition | what breaks |\n|---|---|\n| `line` | {} |\n"
        self.assertEqual(self.found(PAGE + row.format("the program alone, no call: its stdout is compared"), files), [])
        self.assertEqual(len(self.found(PAGE + row.format("`least_within`"), files)), 1)

    def test_a_field_of_the_same_name_is_no_use(self):
        field = changed("crates/linear/src/lib.rt", "result ≡ distance n n", "(of result).rank ≡ result.rank")
        self.assertEqual(self.found(files=field), [])
        self.assertEqual(tied.behind_faults(tied.Sources(FILES), tied.rows(PAGE)), [])
        brought = changed("crates/linear/specs/Topic.antt", "use Rattle.std.specs.Prelude.{ℕ}", "use Rattle.linear.specs.Laws.{rank}")
        self.assertEqual(self.found(files=brought), [])
        brought["crates/linear/specs/Topic.antt"] += "  best b = rank b\n"
        self.assertEqual(len(self.found(files=brought)), 1)


if __name__ == "__main__":
    unittest.main()
