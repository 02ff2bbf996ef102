"""The manual pages and the completion of bash: made from the parser, read by groff and by bash, and installed."""
import importlib.util
import os
import re
import shutil
import subprocess
import unittest

from satmegwo import command

from .places import PACKAGE, ROOT

MANUAL = ROOT / "docs" / "man"
COMPLETION = PACKAGE / "completion.bash"


def manual():
    """The script that makes both."""
    described = importlib.util.spec_from_file_location("manual", PACKAGE / "manual.py")
    module = importlib.util.module_from_spec(described)
    described.loader.exec_module(module)
    return module


def completed(*words):
    """What bash would offer for the last word."""
    script = 'source "$1"; shift; COMP_WORDS=("$@"); COMP_CWORD=$(($# - 1)); _satmegwo; printf "%s\\n" "${COMPREPLY[@]}"'
    done = subprocess.run(["bash", "-c", script, "bash", COMPLETION, *words], capture_output=True, text=True, check=True)
    return set(done.stdout.split())


class Manual(unittest.TestCase):
    def test_what_is_stored_is_what_is_made(self):
        self.assertEqual((MANUAL / "satmegwo.1").read_text(), manual().page(), "`make -C python manual` makes it again")
        self.assertEqual(COMPLETION.read_text(), manual().completion(), "`make -C python manual` makes it again")

    def test_every_command_and_option_is_on_the_page(self):
        page = (MANUAL / "satmegwo.1").read_text()
        for name, parser in manual().commands().items():
            self.assertRegex(page, rf"(?m)^\\fB{name}\\fR \\fIFILE")
            for option in parser._option_string_actions:
                if option not in ("-h", "--help"):
                    self.assertIn("\\fB" + option.replace("-", "\\-") + "\\fR", page, name)

    def test_pages_are_read_without_a_warning(self):
        if not shutil.which("groff"):
            self.skipTest("groff is not installed: the manual pages were not read by it")
        for name in ("satmegwo.1", "boxsheet.1"):
            done = subprocess.run(["groff", "-man", "-Tutf8", "-ww", MANUAL / name], capture_output=True)
            self.assertEqual((done.returncode, done.stderr), (0, b""), name)
            self.assertIn(name[:-2].upper() + "(1)", done.stdout.decode())

    def test_the_pages_name_this_version_and_every_line_of_a_sheet(self):
        for name in ("satmegwo.1", "boxsheet.1"):
            self.assertIn(f'"Satmegwo {manual().__version__}"', (MANUAL / name).read_text())
        page = (MANUAL / "boxsheet.1").read_text()
        for word in manual().LINES:
            self.assertIn(f"\\fB{word}\\fR", page)

    def test_installed(self):
        env = {name: value for name, value in os.environ.items() if name not in ("MAKEFLAGS", "MAKELEVEL", "MFLAGS")}
        told = subprocess.run(["make", "--dry-run", "install", "PREFIX=/there"], cwd=ROOT, env=env, capture_output=True, text=True, check=True)
        for files, place in (
            ("docs/man/boxsheet.1 docs/man/satmegwo.1", "share/man/man1"),
            ("python/completion.bash", "share/bash-completion/completions/satmegwo"),
            ("LICENSE", "share/doc/satmegwo"),
        ):
            self.assertRegex(told.stdout, rf"(?m)^install -m 644 {re.escape(files)} /there/{place}$")
            for file in files.split():
                self.assertTrue((ROOT / file).is_file(), file)


class Completion(unittest.TestCase):
    def test_commands(self):
        names = {*command.COMMANDS, *command.ALIASES.values()}
        self.assertEqual(completed("satmegwo", ""), {"--help", "--version", *names})
        self.assertEqual(completed("satmegwo", "co"), {name for name in names if name.startswith("co")})
        self.assertEqual(completed("satmegwo", "--v"), {"--version"})

    def test_options(self):
        for name, parser in manual().commands().items():
            options = {option for option in parser._option_string_actions if option != "-h"}
            self.assertEqual(completed("satmegwo", name, "-"), options, name)
            long = {option for option in options if option.startswith("--")}
            self.assertEqual(completed("satmegwo", name, "a.box", "--"), long, name)
        self.assertEqual(completed("satmegwo", "ddt", "--cs"), {"--csv"})

    def test_words_of_options(self):
        self.assertEqual(completed("satmegwo", "explain", "--figure", "a"), {"autocorrelation"})
        self.assertEqual(completed("satmegwo", "sheet", "--only", "s"), {"sac"})
        self.assertEqual(completed("satmegwo", "sheet", "--limit", ""), {"all"})
        self.assertEqual(completed("satmegwo", "sheet", "--base", ""), {"10", "16"})

    def test_files_are_left_to_bash(self):
        self.assertEqual(completed("satmegwo", "sheet", ""), set())
        self.assertEqual(completed("satmegwo", "sheet", "-o", "out"), set())
        self.assertIn("complete -o default -F _satmegwo satmegwo\n", COMPLETION.read_text())
