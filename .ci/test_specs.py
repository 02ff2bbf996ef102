#!/usr/bin/env python3
"""Tests of specs.py on planted specs and sources: each fault is found, and what is right is not taken for one."""
import unittest

import specs

BELIEVED = """-- Topic
use Rattle.linear.specs.Calls.{candidate}

unfoldable pub distance : (n : ℕ) (f : ℕ → ℕ) (w b : ℕ) → ℕ
distance n f w b = 0

abbrev pub one : List ℕ → ℕ
one xs = 0

unfoldable pub each : {A B : Type 0} (xs : List A) (f : A → List B) → List B
"""
UNNAMED = """unfoldable pub distance : ℕ → (ℕ → ℕ) → ℕ → ℕ
distance n f w = 0
"""
HALF_NAMED = """pub record Here (n : ℕ) : Type 0 where
  pub least : (c : ℕ) → c < n → c ≤ n
abbrev pub checks : (n m : ℕ)
    → List ℕ → List Check
"""
IMPORTS_WORK = """use Rattle.linear.specs.Work.{Swept, candidate}
pub record Found : Type 0 where
"""
SOURCE = """ghost use Rattle.linear.specs.Calls.{least_pair};
ghost use Rattle.linear.specs.Work.{Swept};

fn sweep(n: u32) -> u32
    requires { Swept n }
    ensures { result ≡ n }
{
    n
}

pub fn nonlinearity(n: u32) -> u32
    ensures { least_pair result ≡ n }
{
    sweep(n)
}
"""
CALLS = [("linear", "nonlinearity")]


class Specs(unittest.TestCase):
    def test_what_is_right_passes(self):
        self.assertEqual(specs.faults_of_specs("crates/linear/specs/Topic.antt", BELIEVED), [])
        self.assertEqual(specs.faults_of_calls("linear", SOURCE, CALLS), [])
        self.assertEqual(specs.long_lines("a" * 140 + "\n" + "b"), [])

    def test_arguments_without_names(self):
        self.assertEqual(len(specs.faults_of_specs("specs/Topic.antt", UNNAMED)), 1)
        self.assertEqual(len(specs.faults_of_specs("specs/Topic.antt", HALF_NAMED)), 1)

    def test_what_must_be_believed_rests_on_what_need_not(self):
        self.assertEqual(len(specs.faults_of_specs("specs/Topic.antt", IMPORTS_WORK)), 1)
        self.assertEqual(specs.faults_of_specs("specs/Work.antt", IMPORTS_WORK), [])

    def test_a_call_s_contract_names_what_need_not_be_believed(self):
        wrong = SOURCE.replace("least_pair result", "Swept result")
        self.assertEqual(len(specs.faults_of_calls("linear", wrong, CALLS)), 1)
        renamed = wrong.replace("{Swept}", "{Swept as Gone}").replace("Swept result", "Gone result")
        self.assertEqual(len(specs.faults_of_calls("linear", renamed, CALLS)), 1)
        self.assertEqual(specs.faults_of_calls("masks", wrong, CALLS), [])

    def test_a_name_with_two_meanings(self):
        self.assertEqual(specs.defined(BELIEVED + HALF_NAMED), ["distance", "one", "each", "Here", "checks"])
        self.assertEqual(specs.twice_defined({"within": ["a/Bits", "b/Text"], "dot": ["a/Bits"]}), ["within is defined in a/Bits, b/Text"])

    def test_a_long_line(self):
        self.assertEqual(specs.long_lines("a\n" + "≡" * 141), [2])
        self.assertEqual(specs.long_lines(f"use Rattle.linear.specs.Calls.{{{'a' * 140}}}"), [1])

    def test_a_line_that_is_left(self):
        file = "crates/walsh/specs/Calls.antt"
        self.assertEqual(specs.long_lines("≡" * 142, file), [])
        self.assertEqual(specs.long_lines("≡" * 143, file), [1])
        self.assertEqual(specs.long_lines("≡" * 142, "crates/linear/specs/Calls.antt"), [1])


if __name__ == "__main__":
    unittest.main()
