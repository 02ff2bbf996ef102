#!/usr/bin/env python3
"""Tests of commands.py on planted pages: each kind of fault is found, and what a page shows rightly is none."""
import pathlib
import subprocess
import sys
import tempfile
import unittest

import commands

PAGE = """# A page

Words, and `$ no command` in them.

    $ echo one && echo two
    one
    two

    $ seq 1 5
    1
    ..
    5

A list:

- an item
    $ echo "goes on with the item, and is none"

```
$ export WORD=kept \\
    MORE=too
$ echo $WORD $MORE     # a comment
kept too
```

    $ .ci/run
    150 passed, 0 failed
"""


class Parsed(unittest.TestCase):
    def test_the_commands_of_a_page(self):
        found = commands.commands("README.md", PAGE)
        self.assertEqual([command.text for command in found], ["echo one && echo two", "seq 1 5", "export WORD=kept \\\n    MORE=too", "echo $WORD $MORE     # a comment"])
        self.assertEqual([command.shown for command in found], [["one", "two"], ["1", "..", "5"], [], ["kept too"]])
        self.assertEqual([command.line for command in found], [5, 9, 20, 22])

    def test_the_shell_lines_of_a_section(self):
        page = "# A\n\n## One\n\n```sh\nfirst\n\nsecond  # more\n```\n\nWords.\n\n```c\nint x;\n```\n\n```sh\nthird\n```\n\n## Two\n\n```sh\nother\n```\n"
        self.assertEqual(commands.shell_lines(page, "One"), ["first", "", "second  # more", "third"])
        self.assertEqual(commands.shell_lines(page, "Two"), ["other"])
        self.assertEqual(commands.shell_lines(page, "Three"), [])
        self.assertEqual(commands.shell_lines(page, "On"), [])

    def test_a_section_without_a_block_is_a_fault(self):
        script = pathlib.Path(commands.__file__)
        told = subprocess.run([sys.executable, script, "--section", script.parent.parent / "docs/C.md", "Threads"], capture_output=True, text=True)
        self.assertEqual((told.returncode, told.stdout), (1, ""))
        self.assertIn("has no ```sh block below the heading Threads", told.stderr)

    def test_left_out_lines(self):
        self.assertTrue(commands.agrees(["a", "..", "d"], ["a", "b", "c", "d"]))
        self.assertTrue(commands.agrees(["a", "...", "d"], ["a", "d"]))
        self.assertTrue(commands.agrees(["..", "b", ".."], ["a", "b", "c"]))
        self.assertFalse(commands.agrees(["a", "..", "d"], ["a", "b", "c"]))
        self.assertFalse(commands.agrees(["a"], ["a", "b"]))
        self.assertFalse(commands.agrees(["a", "b"], ["a"]))
        self.assertFalse(commands.agrees(["a ..", "b"], ["a b", "b"]))


class Run(unittest.TestCase):
    def setUp(self):
        self.folder = tempfile.TemporaryDirectory()
        self.root = pathlib.Path(self.folder.name)
        subprocess.run(["git", "init", "-q", "."], cwd=self.root, check=True)
        (self.root / ".gitignore").write_text("target/\n")
        (self.root / "docs").mkdir()

    def tearDown(self):
        self.folder.cleanup()

    def faults(self, page):
        listed = commands.commands("README.md", page)
        return commands.faults(self.root, listed, commands.run(self.root, listed))

    def one_fault(self, part, page):
        found = self.faults(page)
        self.assertEqual(len(found), 1, found)
        self.assertIn(part, found[0])

    def test_a_right_page(self):
        self.assertEqual(self.faults(PAGE), [])

    def test_another_output(self):
        self.one_fault("the page shows", PAGE.replace("    two\n", "    three\n"))
        self.one_fault("the page shows", "\n    $ true\n    a line\n")
        self.one_fault("the page shows", "\n    $ printf 'a\\nb\\n'\n    a\n")

    def test_a_status(self):
        self.one_fault("ended with status 3", "\n    $ (exit 3)\n")
        self.one_fault("ended with status 127", "\n    $ no-such-command\n    ..\n")
        self.assertEqual(self.faults("\n    $ (exit 3); echo $?\n    3\n"), [])

    def test_what_is_printed_to_standard_error_is_shown_too(self):
        self.assertEqual(self.faults("\n    $ echo bad >&2\n    bad\n"), [])

    def test_a_command_that_leaves_the_root(self):
        self.one_fault("left the shell in", "\n    $ mkdir target && cd target\n\n    $ pwd\n    /\n")
        self.assertEqual(self.faults("\n    $ (cd docs && basename $PWD)\n    docs\n"), [])

    def test_a_command_that_ends_the_shell(self):
        self.one_fault("ended the shell", "\n    $ exit 0\n\n    $ echo after\n    after\n")

    def test_the_last_line_without_an_end(self):
        self.assertEqual(self.faults("\n    $ printf one\n    one\n\n    $ echo two\n    two\n"), [])

    def test_no_command_waits_for_input(self):
        self.assertEqual(self.faults("\n    $ cat | wc -c\n    0\n"), [])

    def test_what_is_left_behind(self):
        before = commands.status(self.root)
        self.assertEqual(self.faults("\n    $ mkdir -p target && touch target/built\n"), [])
        self.assertEqual(commands.status(self.root), before)
        self.faults("\n    $ touch left.box\n")
        self.assertNotEqual(commands.status(self.root), before)

    def test_the_pages(self):
        (self.root / "docs" / "B.md").write_text("")
        (self.root / "docs" / "A.md").write_text("")
        self.assertEqual(commands.pages(self.root, []), ["README.md", "docs/A.md", "docs/B.md"])


if __name__ == "__main__":
    unittest.main()
