#!/usr/bin/env python3
"""Tests of lent.py on planted sources: an array that no `ensures` names as it is left, and a reply without a contract."""
import unittest

import lent
import sources

RIGHT = """
// fn old(out: &mut [u8]) {}
pub fn fill<'a>(rows: &[u32], out: &'a mut [u32; 256], mut k: usize) -> [u32; 4]
    requires { length out.old ≡ k }
    ensures same { result ≡ rows.now }
    ensures content { out.new ≡ replicate k 0 }
{
    rows
}

fn clear(out: &mut [u32])
    ensures { AnyContent out.old out.new }
{
    out[0] = 0;
}

fn main() {}
"""


def faults(text):
    return lent.faults(sources.functions("packing", "", sources.tokens(text)))


class Lent(unittest.TestCase):
    def one_fault(self, old, new, part):
        self.assertIn(old, RIGHT)
        found = faults(RIGHT.replace(old, new))
        self.assertEqual(len(found), 1, found)
        self.assertIn(part, found[0])

    def test_each_array_is_named(self):
        self.assertEqual(faults(RIGHT), [])

    def test_an_array_that_a_sweep_works_in(self):
        functions = sources.functions("packing", "", sources.tokens(RIGHT.replace("out.new }\n{\n    out", "out.old }\n{\n    out")))
        self.assertEqual(lent.faults(functions, {("packing::clear", "out")}), [])
        (fault,) = lent.faults(functions, {("packing::clear", "out"), ("packing::fill", "out")})
        self.assertIn("packing::fill is said to work in out", fault)

    def test_an_array_that_no_ensures_names(self):
        self.one_fault("out.new ≡ replicate k 0", "result ≡ result", "packing::fill is lent out")
        self.one_fault("    ensures { AnyContent out.old out.new }\n", "", "packing::clear is lent out")

    def test_its_content_before_the_call_is_not_enough(self):
        self.one_fault("AnyContent out.old out.new", "AnyContent out.old out.old", "packing::clear is lent out")

    def test_what_is_asked_of_it_is_not_enough(self):
        self.one_fault("ensures { AnyContent", "requires { AnyContent", "packing::clear is lent out")

    def test_the_name_of_another_array_is_not_enough(self):
        self.one_fault("out.new ≡", "about.new ≡", "packing::fill is lent out")

    def test_a_second_array(self):
        self.one_fault("mut k: usize", "words: &mut [u32]", "packing::fill is lent words")

    def test_a_reply_without_a_contract(self):
        self.one_fault("fn main() {}", "fn main() -> u32 { 1 }", "packing::main returns something")

    def test_what_a_program_writes(self):
        shows = "fn show<W: Write>(out: &mut W, n: u32) -> io::Result<()> { end_line(out) }\nfn main(rt: HostRuntime) -> io::Result<()> { show(&mut rt.stdout(), 1) }"
        self.assertEqual(faults(RIGHT.replace("fn main() {}", shows)), [])
        for old, new in (
            ("out: &mut W", "out: &mut [u8]"),
            ("io::Result<()> { end", "io::Result<u32> { end"),
            ("io::Result<()> { end", "io::Result<()> ensures { result ≡ n } { end"),
            ("fn main", "fn other"),
        ):
            found = faults(RIGHT.replace("fn main() {}", shows.replace(old, new)))
            self.assertIn("packing::show is lent out, and no `ensures` says what it holds afterwards", found)


if __name__ == "__main__":
    unittest.main()
