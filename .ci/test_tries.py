#!/usr/bin/env python3
"""Tests of tries.py on a planted tree: every edit has the log of a check with it, what has changed is tried again, and nothing else is."""
import os
import pathlib
import subprocess
import tempfile
import unittest

TRIES = pathlib.Path(__file__).resolve().parent / "tries.py"
# In place of the kit's commands: they note how they were called, and the prover says what it read. Where it reads `wrong` it proves nothing, where it reads
# `odd` it gives no verdict.
RT = """#!/bin/sh
case $1 in
version) echo kit ;;
lib) echo "lib $(basename "$PWD")" >> "$NOTED"; ! grep -q unproved src/lib.rt ;;
esac
"""
RATTLE = """#!/bin/sh
echo "check $3" >> "$NOTED"
while [ $# -gt 0 ]; do
    [ "$1" != --incremental ] || kept=$2
    shift
done
[ -d "$kept" ] || exit 2
cat src/lib.rt
grep -q kept "$kept/one.oantt" 2>/dev/null && echo begun
! grep -q odd src/lib.rt || exit 2
! grep -q wrong src/lib.rt || exit 1
"""


class Tries(unittest.TestCase):
    def setUp(self):
        folder = tempfile.TemporaryDirectory()
        self.addCleanup(folder.cleanup)
        self.top = pathlib.Path(folder.name)
        self.write("crates.txt", "low:\nhigh: low std\nhigh_c staticlib: high # for C\n")
        for crate in ("low", "high", "high_c"):
            self.write(f"crates/{crate}/src/lib.rt", f"{crate} as it is\n")
        self.write("crates/low/must-fail/one.edit", "refused: f\nfile: src/lib.rt\nold: as it\nnew: wrong\n")
        self.write("crates/high/must-fail/one.edit", "file: src/lib.rt\nold: is\nnew: was wrong\n\nold: high\nnew: here\n")
        self.write("crates/high/must-fail/two.edit", "file: src/lib.rt\nold: is\nnew: is not\n")
        for name, text in (("rt", RT), ("rattle", RATTLE)):
            self.write(f"kit/bin/{name}", text)
            (self.top / "kit/bin" / name).chmod(0o755)

    def write(self, file, text):
        (self.top / file).parent.mkdir(parents=True, exist_ok=True)
        (self.top / file).write_text(text, encoding="utf-8")

    def tries(self, *names, status=0, **more):
        """Runs the script, and gives what it said and the calls of the kit."""
        noted = self.top / "noted"
        noted.write_text("")
        own = {"PATH": f"{self.top}/kit/bin:{os.environ['PATH']}", "XDG_CACHE_HOME": f"{self.top}/cache", "NOTED": str(noted)}
        env = {**{name: value for name, value in os.environ.items() if name != "AFTER_CI"}, **own, **more}
        called = ["python3", TRIES, self.top, self.top / "logs", *names]
        ran = subprocess.run(called, env=env, stdout=subprocess.PIPE, stderr=subprocess.STDOUT, text=True)
        self.assertEqual(ran.returncode, status, ran.stdout)
        return ran.stdout, sorted(noted.read_text().splitlines())

    def log(self, crate, edit):
        return (self.top / "logs" / crate / edit / ".log").read_text(encoding="utf-8")

    def test_each_edit_has_its_log(self):
        said, calls = self.tries()
        self.assertIn("3 must-fail edits: 0 stand as they were tried before on this machine, 3 tried", said)
        self.assertEqual(calls, 3 * ["check high"] + 2 * ["check low"] + ["lib low"])
        self.assertEqual(self.log("low", "one"), "low wrong is\n")
        self.assertEqual(self.log("high", "one"), "here as it was wrong\n")
        self.assertEqual(self.log("high", "two"), "high as it is not\n")
        self.assertEqual((self.top / "crates/low/src/lib.rt").read_text(), "low as it is\n")

    def test_nothing_is_tried_twice(self):
        self.tries()
        said, calls = self.tries()
        self.assertEqual(calls, [])
        self.assertIn("3 stand as they were tried before", said)
        self.assertEqual(self.log("low", "one"), "low wrong is\n")

    def test_what_changed_is_tried_again(self):
        self.tries()
        self.write("crates/high/must-fail/two.edit", "file: src/lib.rt\nold: is\nnew: wrong\n")
        self.assertEqual(self.tries()[1], 2 * ["check high"] + ["lib low"])
        self.assertEqual(self.log("high", "two"), "high as it wrong\n")
        self.write("crates/high/src/lib.rt", "high as it is now\n")
        self.assertEqual(self.tries()[1], 3 * ["check high"] + ["lib low"])
        self.write("crates/low/specs/A.antt", "a : A\n")
        self.assertEqual(self.tries()[1], 3 * ["check high"] + 2 * ["check low"] + ["lib low"])
        self.write("crates.txt", "low:\nhigh: low\nhigh_c staticlib: high\n")
        self.assertEqual(self.tries()[1], 3 * ["check high"] + ["lib low"])
        self.write("kit/bin/rt", RT.replace("echo kit", "echo newer"))
        self.assertEqual(self.tries()[1], 3 * ["check high"] + 2 * ["check low"] + ["lib low"])

    def test_some_crates_alone(self):
        self.assertEqual(self.tries("low")[1], 2 * ["check low"])
        self.assertEqual(self.tries()[1], 3 * ["check high"] + ["lib low"])

    def test_it_begins_with_what_a_check_left(self):
        self.write("crates/low/out/incremental/one.oantt", "kept\n")
        self.tries("low")
        self.assertEqual(self.log("low", "one"), "low wrong is\nbegun\n")
        self.assertEqual((self.top / "crates/low/out/incremental/one.oantt").read_text(), "kept\n")

    def test_the_gates_libraries_are_taken_as_they_are(self):
        (self.top / "crates/low/out/rlib/low.rlib").mkdir(parents=True)
        self.assertNotIn("lib low", self.tries(AFTER_CI="yes")[1])
        self.write("crates/low/out/rlib/stamp", "")
        self.write("crates/low/src/lib.rt", "low as it is now\n")
        self.assertIn("lib low", self.tries(AFTER_CI="yes")[1])

    def test_a_text_that_is_not_there_once_fails(self):
        for old in ("nowhere", "s"):
            self.write("crates/low/must-fail/one.edit", f"file: src/lib.rt\nold: {old}\nnew: wrong\n")
            self.assertIn("low/one: a text to be changed does not stand in src/lib.rt once", self.tries("low", status=1)[0])

    def test_a_check_without_a_verdict_fails(self):
        self.write("crates/low/must-fail/one.edit", "file: src/lib.rt\nold: is\nnew: odd\n")
        for _ in range(2):
            said, calls = self.tries("low", status=1)
            self.assertIn("low/one: the check ended with status 2", said)
            self.assertEqual(calls, 2 * ["check low"])

    def test_a_crate_that_is_not_proved_fails(self):
        self.write("crates/low/src/lib.rt", "low as it is wrong\n")
        self.assertIn("low is not proved as it stands", self.tries(status=1)[0])
        self.write("crates/low/src/lib.rt", "low as it is unproved\n")
        self.assertIn("low is not proved", self.tries("high", status=1)[0])

    def test_what_a_stopped_run_left_is_removed(self):
        rooms = [self.top / f"tmp/satmegwo-tries-{number}-seed" for number in (os.getpid(), 2**22 + 1)]  # there is no such process
        for room in rooms:
            room.mkdir(parents=True)
        self.tries("low", TMPDIR=str(self.top / "tmp"))
        self.assertEqual([room.exists() for room in rooms], [True, False])
        self.assertEqual(list((self.top / "tmp").iterdir()), rooms[:1])

    def test_no_edit_at_all_fails(self):
        self.tries("high_c", status=1)


if __name__ == "__main__":
    unittest.main()
