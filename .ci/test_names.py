#!/usr/bin/env python3
"""Tests of names.py on planted trees: each dead name, each lost key is found, and what is right is not taken for a fault."""
import unittest

import names

SPECS = """-- what is measured
use Rattle.boolean.specs.Bits.{bit}

unfoldable pub distance : (n : ℕ) (f : ℕ → ℕ) → ℕ
distance n f = 0

pub record Reported (n : ℕ) : Type 0 where
  pub least : (c : ℕ) → c ≤ n

pub record LongReported
    (n : ℕ) : Type 0 where

module One (n : ℕ) where
  pub record InnerReported : Type 0 where

pub data Reply : Type 0 where
  refusal : ℕ → Reply
"""
DEMAND = """-- Demand 3, and its key [D3.9] in the words above the imports, where it is no statement's.
use Rattle.linear.specs.Nonlinearity.{distance}

-- [D3.1] "every nonzero combination differs"
-- [D3.2] "the witness is first"
pub least_within : (n : ℕ)
    → ℕ
least_within n = n

module _ (n : ℕ) where
  -- [02.§12.1] two additions are one
  pub two_are_one : ℕ
  two_are_one = 0

  pub two_are_one_again :
      ℕ
  two_are_one_again = 0
"""
SOURCE = """pub fn nonlinearity(n: u32) -> u32
{
    n
}

pub struct Design {
    n: u32,
}

impl Design {
    pub fn swap(self) -> Self { self }
}

enum Answer {
    Done,
    Declined(Refusal),
}
"""
HEADER = """/* The calls. Stack: SATMEGWO_STACK, examples/stack.c. See satmegwo_nonlinearity; `figures` is
 * written. */
#define SATMEGWO_STACK 40000u
uint32_t satmegwo_nonlinearity(uint32_t n, uint32_t *figures);
"""
PAGE = """# Page

`distance` (`linear/specs/Nonlinearity`), `Reported`, `InnerReported` and `LongReported` (`linear/specs/Nonlinearity`), field `least`; `linear::nonlinearity`,
`Design::swap`, `linear::Design`, `Done`; `crates/linear/src/`, `crates/*/specs/`, `docs/PROMISES.md`, `stack.c`, `linear`, `requires`, `NAME.box`, `target/bin/x`,
`first (distance ..)`, `Nonlinearity.distance`, `two_are_one`, DECISIONS 7, [promises](docs/PROMISES.md), [away](https://example.org/a).

    $ a command with `backquoted-nonsense`

```
and `another-one`
```
"""
PROMISES = """# Promises

| key | sentence | definition | contract | theorem |
|---|---|---|---|---|
| D3.1 | every combination differs | `distance` | | `least_within` |
| D3.2 | the witness is first | | | `least_within` |
| 02.§12.1 | two are one | | | `two_are_one`, `two_are_one_again` |
| 01.form.1 | signed values | | | none: a form of the code |
"""
FILES = {
    "README.md": PAGE,
    "docs/PROMISES.md": PROMISES,
    "docs/DECISIONS.md": '<a id="7"></a>**7. A decision.**\n',
    "docs/landings/01-old.md": "`gone-long-ago`\n",
    "crates/linear/specs/Nonlinearity.antt": SPECS,
    "crates/linear/src/lib.rt": SOURCE,
    "crates/linear/must-fail/sweep.edit": "refused: nonlinearity\nnew: wrong_name\n",
    "crates/claims/proofs/Demand3.antt": DEMAND,
    "examples/stack.c": "int main(void) { return 0; }\n",
    "include/satmegwo.h": HEADER,
}


class Names(unittest.TestCase):
    def faults(self, **changed):
        files = dict(FILES)
        for name, text in changed.items():
            files[{"page": "README.md", "promises": "docs/PROMISES.md", "claims": "crates/claims/proofs/Demand3.antt", "header": "include/satmegwo.h"}[name]] = text
        return names.faults(names.Tree(files))

    def one_fault(self, part, **changed):
        found = self.faults(**changed)
        self.assertEqual(len(found), 1, found)
        self.assertIn(part, found[0])

    def test_what_is_there_passes(self):
        self.assertEqual(self.faults(), [])

    def test_a_dead_name(self):
        for token in ("distances", "least_without", "nextMask", "first (distances_of ..)", "linear::sweep", "lines::sweep", "Design::mark", "Nonlinearity.cell", "wrong_name"):
            self.one_fault("no ", page=PAGE + f"`{token}`\n")

    def test_an_ending(self):
        self.assertEqual(self.faults(page=PAGE + "every `_within`\n"), [])
        self.one_fault("no name that ends in _without", page=PAGE + "every `_without`\n")

    def test_a_dead_file(self):
        for token in ("crates/lines/src/", "linear/specs/Gone", "gone.c", "docs/GONE.md"):
            self.one_fault("no file", page=PAGE + f"`{token}`\n")

    def test_a_dead_link(self):
        self.one_fault("no file docs/GONE.md", page=PAGE + "[gone](docs/GONE.md)\n")

    def test_a_dead_place_of_a_page(self):
        self.assertEqual(self.faults(page=PAGE + "[here](#page), [seven](docs/DECISIONS.md#7), [promises](docs/PROMISES.md#promises)\n"), [])
        self.one_fault("no place #pages", page=PAGE + "[here](#pages)\n")
        self.one_fault("no place docs/DECISIONS.md#8", page=PAGE + "[eight](docs/DECISIONS.md#8)\n")

    def test_a_crate_and_a_file_of_it(self):
        self.assertEqual(self.faults(page=PAGE + "in `linear` (`specs/Nonlinearity`)\n"), [])
        self.assertIn("no file must-fail/sweep in claims", self.faults(page=PAGE + "in `claims` (`must-fail/sweep`)\n")[0])

    def test_a_name_and_its_file_on_two_lines(self):
        self.one_fault("swap is not declared", page=PAGE + "\nWords about `swap`\n(`linear/specs/Nonlinearity`).\n")

    def test_a_dead_entry_of_the_decisions(self):
        self.one_fault("no entry 8", page=PAGE + "DECISIONS 8\n")

    def test_a_name_in_another_file(self):
        self.one_fault("swap is not declared in linear/specs/Nonlinearity", page=PAGE + "`swap` (`linear/specs/Nonlinearity`)\n")
        self.one_fault("distance is not declared", page=PAGE + "`two_are_one`, `distance` in `crates/claims/proofs/Demand3.antt`\n")

    def test_a_wrong_program_by_its_edit(self):
        self.assertEqual(self.faults(page=PAGE + "the wrong `nonlinearity` in `linear/must-fail/sweep`\n"), [])
        self.one_fault("swap is not declared", page=PAGE + "the wrong `swap` in `linear/must-fail/sweep`\n")

    def test_an_option(self):
        self.one_fault("no option --row", page=PAGE + "`--row PART`\n")

    def test_the_landings_are_records(self):
        records = {"docs/PORT.md": "`gone-long-ago`\n", "docs/DESIGN-PASS.md": "`gone-long-ago`\n"}
        self.assertEqual(names.pages(names.Tree({**FILES, **records})), names.pages(names.Tree(FILES)))
        self.assertNotIn("docs/landings/01-old.md", names.pages(names.Tree(FILES)))

    def test_the_table_of_their_names_is_true(self):
        self.assertEqual(names.faults(names.Tree({**FILES, "docs/landings/README.md": "| gone-long-ago | `linear` |\n"})), names.faults(names.Tree(FILES)))
        found = names.faults(names.Tree({**FILES, "docs/landings/README.md": "| old | `gone-long-ago` |\n"}))
        self.assertTrue(any("docs/landings/README.md:1: no gone-long-ago" in fault for fault in found), found)

    def test_a_dead_name_in_a_header(self):
        self.one_fault("satmegwo_degree", header=HEADER.replace("See satmegwo_nonlinearity", "See satmegwo_degree"))
        self.one_fault("SATMEGWO_ROOM", header=HEADER.replace("Stack: SATMEGWO_STACK", "Stack: SATMEGWO_ROOM"))
        self.one_fault("examples/gone.c", header=HEADER.replace("examples/stack.c", "examples/gone.c"))
        self.one_fault("no room", header=HEADER.replace("`figures`", "`room`"))

    def test_a_statement_without_a_key(self):
        self.one_fault("least_within has no key", claims=DEMAND.replace("[D3.1] ", "").replace("[D3.2] ", ""), promises=PROMISES.replace("| D3.1", "| x").replace("| D3.2", "| x"))

    def test_a_statement_that_no_row_names(self):
        self.one_fault("02.§12.1 names two_are_one, two_are_one_again", claims=DEMAND + "  pub one-more : ℕ\n")

    def test_statements_by_their_ending(self):
        self.assertEqual(self.faults(promises=PROMISES.replace("`two_are_one`, `two_are_one_again`", "`two_*`")), [])
        self.one_fault("02.§12.1 names two_are_one_again", promises=PROMISES.replace("`two_are_one`, `two_are_one_again`", "`*_again`"))

    def test_a_promise_without_its_statement(self):
        self.one_fault("D3.2 has no statement", claims=DEMAND.replace('-- [D3.2] "the witness is first"\n', ""))
        self.one_fault("01.form.1 has no statement", promises=PROMISES.replace("none: a form of the code", ""))

    def test_a_key_that_no_row_has(self):
        self.one_fault("[D3.2] is no key", promises=PROMISES.replace("| D3.2 | the witness is first | | | `least_within` |\n", ""))

    def test_a_row_that_names_another_statement(self):
        self.one_fault("D3.2 names two_are_one", promises=PROMISES.replace("is first | | | `least_within`", "is first | | | `two_are_one`"))
        self.one_fault("D3.2 names nothing", promises=PROMISES.replace("is first | | | `least_within`", "is first | | | `Reported`"))

    def test_a_key_twice(self):
        self.one_fault("D3.1 stands there twice", promises=PROMISES + "| D3.1 | again | | | `least_within` |\n")

    def test_a_crate_that_readers_do_not_find(self):
        files = {"crates.txt": "# floors\nboolean:\nlinear: boolean\n", "docs/READING.md": "`boolean`, `linear`\n"}
        self.assertEqual(names.crate_faults(names.Tree(files)), [])
        self.assertEqual(len(names.crate_faults(names.Tree({**files, "docs/READING.md": "`boolean`\n"}))), 1)

    def test_the_parts_of_the_gate(self):
        files = {".ci/run": 'case " scripts proofs " in\n', "docs/CONTRIBUTING.md": "| part | what |\n|---|---|\n| `scripts` | x |\n| `proofs` | y |\n\n| `other` | z |\n"}
        self.assertEqual(names.part_faults(names.Tree(files)), [])
        for wrong in ('case " scripts proofs bench " in\n', 'case " scripts " in\n'):
            self.assertEqual(len(names.part_faults(names.Tree({**files, ".ci/run": wrong}))), 1)

    def test_page_one_of_the_certificate(self):
        page = "# Certified\n\n## Page one\n\n" + "word " * 350 + "\n\n## Page two (long)\n\n" + "word " * 500 + "\n"
        self.assertEqual(names.certificate_faults(names.Tree({"docs/CERTIFICATE.md": page})), [])
        for wrong in (page.replace("word", "one word", 1), page.replace("word", "(word)", 1), page.replace("word", "[word]", 1)):
            self.assertEqual(len(names.certificate_faults(names.Tree({"docs/CERTIFICATE.md": wrong}))), 1)


if __name__ == "__main__":
    unittest.main()
