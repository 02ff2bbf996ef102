"""The commands that list, improve and pack; numbers and long names of options; what goes to a terminal."""
import os
import pathlib
import re
import shlex
import subprocess
import sys
import tempfile
import unittest
import unittest.mock

import satmegwo
from satmegwo import Box, command, library, sweeping
from satmegwo.commands import COMMANDS

from .places import PACKAGE, ROOT, example
from .test_command import ROWS, run, run_alone

DES = str(ROOT / "examples" / "des-s1.box")
AES = str(ROOT / "examples" / "aes.box")


class Lists(unittest.TestCase):
    def test_pairs(self):
        done = run("pairs", ROOT / "examples" / "des-s4.box")
        heading, *lines = (ROOT / "examples" / "pairs.stdout").read_text().splitlines()  # as the C program prints them
        self.assertEqual(done.stdout.decode().splitlines()[1:], lines)
        self.assertEqual(done.stdout.decode().splitlines()[0], heading.replace(";", ", limit 4;"))

    def test_cells(self):
        box = example("present")
        heading, *lines = run("cells", ROOT / "examples" / "present.box").stdout.decode().splitlines()
        cells = box.largest_cells()
        self.assertEqual(heading, f"largest cell {box.largest_cell().figure}; cells that reach it: {len(cells)}")
        self.assertEqual(lines, [f"a = {a}, beta = {beta}" for a, beta in cells])


class Improving(unittest.TestCase):
    def setUp(self):
        folder = tempfile.TemporaryDirectory()
        self.addCleanup(folder.cleanup)
        self.output = pathlib.Path(folder.name, "better.box")
        self.text = (ROOT / "examples" / "improve.stdout").read_text()  # as the C program prints it

    def test_the_improved_box_is_written(self):
        done = run("improve", DES, "-o", self.output)
        self.assertEqual((done.returncode, done.stdout.decode(), done.stderr), (0, self.text, b""))
        better = Box.from_file(self.output)
        self.assertEqual((better.nonlinearity().figure, better.raising_swap()), (20, None))
        self.assertEqual(run("improve", DES).stdout.decode(), self.text)

    def test_some_steps(self):
        done = run("improve", DES, "--steps", "1", "--output", self.output)
        self.assertEqual(done.stdout.decode().splitlines(), [*self.text.splitlines()[:2], "stopped: another swap may raise it"])
        self.assertEqual(Box.from_file(self.output), example("des-s1").swapped(0, 17))
        self.assertEqual(run("improve", DES, "--steps", "0").returncode, 2)

    def test_the_box_to_standard_output(self):
        done = run("improve", DES, "-o", "-")
        self.assertEqual((done.returncode, done.stderr.decode()), (0, self.text))
        self.assertEqual(Box.from_bytes(done.stdout).nonlinearity().figure, 20)

    def test_the_swaps_are_told_where_the_box_cannot_be_written(self):
        done = run("improve", DES, "-o", "/nowhere/better.box")
        self.assertEqual((done.returncode, done.stdout.decode()), (2, self.text))
        self.assertEqual(done.stderr, b"/nowhere/better.box: it could not be written: No such file or directory\n")

    def test_ctrl_c_keeps_the_swaps_so_far(self):
        calls, heard = [], sweeping.heard

        def interrupted(call):
            calls.append(call)
            if len(calls) == 3:
                raise KeyboardInterrupt
            return heard(call)

        with unittest.mock.patch.object(sweeping, "heard", interrupted):
            done = run("improve", DES, "-o", self.output)
        self.assertEqual(done.returncode, 130)
        self.assertEqual(done.stdout.decode().splitlines(), [*self.text.splitlines()[:3], "stopped: another swap may raise it"])
        self.assertEqual(Box.from_file(self.output).nonlinearity().figure, 18)

    def test_more_than_eight_outputs(self):
        done = run("improve", ROOT / "examples" / "aes-round.box")
        self.assertEqual((done.returncode, done.stdout), (1, b""))
        self.assertIn(b"the box has 32 outputs, and raising swaps are looked for up to 8 (refused 2", done.stderr)


class Packing(unittest.TestCase):
    def test_there_and_back(self):
        with tempfile.TemporaryDirectory() as folder:
            packed, back = pathlib.Path(folder, "aes.packed"), pathlib.Path(folder, "aes.box")
            self.assertEqual(run("pack", AES, "-o", packed).returncode, 0)
            self.assertEqual(packed.read_bytes(), example("aes").packed())
            self.assertEqual(run("pack", packed, "--unpack", "-n", "8", "-m", "8", "-o", back).returncode, 0)
            self.assertEqual(back.read_bytes(), pathlib.Path(AES).read_bytes())
            done = run("pack", packed, "--unpack", "-n", "8", "-m", "7")
            self.assertEqual((done.returncode, done.stdout), (1, b""))
            self.assertIn(b"it has 256 bytes, and 7 columns of 8 inputs need 224 bytes (refused 3", done.stderr)
            for words in (["-n", "8"], ["-m", "8"], []):
                done = run("pack", packed, "--unpack", *words)
                self.assertEqual(done.returncode, 2)
                self.assertIn(b"state both, -n and -m", done.stderr)

    def test_hex(self):
        self.assertEqual(run("pack", AES, "--hex").stdout.decode(), (ROOT / "examples" / "packing.stdout").read_text())


class Options(unittest.TestCase):
    def test_version(self):
        for done in (run("--version"), run_alone("--version")):
            told = f"satmegwo {satmegwo.__version__}, library {satmegwo.version()}\n"
            self.assertEqual((done.returncode, done.stdout.decode()), (0, told))
        library.functions.cache_clear()
        self.addCleanup(library.functions.cache_clear)
        with unittest.mock.patch.dict("os.environ", SATMEGWO_LIBRARY="/nowhere.so"):
            done = run("--version")
        self.assertEqual((done.returncode, done.stdout), (2, b""))
        self.assertIn(f"satmegwo {satmegwo.__version__}; the library /nowhere.so could not be loaded", done.stderr.decode())

    def test_long_names(self):
        with tempfile.TemporaryDirectory() as folder:
            output = pathlib.Path(folder, "out")
            done = run("sheet", "-", "--inputs", "3", "--outputs", "3", "--output", output, "--jobs", "1", given=ROWS)
            self.assertEqual((done.returncode, done.stdout), (0, b""))
            self.assertEqual(output.read_bytes(), (ROOT / "examples" / "example.sheet").read_bytes())

    def test_numbers(self):
        plain = run("explain", DES, "--figure", "distance", "--limit", "2", "--flips", "3").stdout
        self.assertEqual(run("explain", DES, "--figure", "distance", "--limit", "0x2", "--flips", "0X03").stdout, plain)
        self.assertEqual(run("explain", DES, "--limit", "all").stdout, run("explain", DES, "--limit", "4").stdout)
        self.assertEqual(run("distance", DES, "--order", "0x2,0x1").stdout, run("distance", DES, "--order", "2,1").stdout)
        for words in (
            ["spectrum", DES, "--combination", "x1"],
            ["spectrum", DES, "--combination", "1.0"],
            ["spectrum", DES, "--combination", "1_0"],
            ["spectrum", DES, "--combination", "0x"],
            ["distance", DES, "--order", "1,"],
            ["sheet", DES, "-n", ""],
        ):
            done = run(*words)
            self.assertEqual((done.returncode, done.stdout), (2, b""), words)
            self.assertIn("is no whole number, such as 12 or 0x0c", done.stderr.decode())
        self.assertIn("most is neither a number of outputs nor the word all", run("sheet", DES, "--limit", "most").stderr.decode())
        self.assertIn("is no order, such as 2,1", run("distance", DES, "--order", "2").stderr.decode())
        self.assertIn("0 is less than 1", run("sheet", DES, "-j", "0").stderr.decode())
        self.assertIn("the limit i is -1, and must be 1 to 4", run("sheet", DES, "--limit", "-1").stderr.decode())

    def test_the_lines_of_the_read_me_file(self):
        lines = re.findall(r"^    \$ satmegwo (.*)$", (PACKAGE / "README.md").read_text(encoding="utf-8"), re.MULTILINE)
        asked = [command.parser().parse_args(shlex.split(line, comments=True)) for line in lines]
        self.assertEqual({args.command for args in asked} | {"xor", "spectrum", "counts"}, set(COMMANDS))

    def test_the_name_of_the_program(self):
        for name, told in (("/usr/bin/satmegwo", "satmegwo"), ("/x/satmegwo/__main__.py", "python3 -m satmegwo")):
            with unittest.mock.patch.object(sys, "argv", [name]):
                self.assertEqual(command.parser().prog, told)


class Output(unittest.TestCase):
    def test_bytes_do_not_go_to_a_terminal(self):
        for words, is_bytes in (
            (["boxfile", DES], True),
            (["pack", DES], True),
            (["improve", DES, "-o", "-"], True),
            (["pack", DES, "--hex"], False),
        ):
            ours, theirs = os.openpty()
            done = run_alone(*words, stdout=theirs)
            os.write(theirs, b".")  # so that there is something to be read
            self.assertEqual((done.returncode, b"is a terminal: name a file with -o" in done.stderr), (2 * is_bytes, is_bytes), words)
            self.assertEqual(os.read(ours, 4096) == b".", is_bytes)
            os.close(ours)
            os.close(theirs)

    def test_a_write_that_ends_early_is_told(self):
        with tempfile.TemporaryDirectory() as folder:
            # No file may become longer than 1,024 bytes; without a buffer the first write ends there and only the next one fails.
            limited = f"ulimit -f 1; exec {sys.executable} -B -m satmegwo lat {AES} > {folder}/out"
            env = {**os.environ, "PYTHONUNBUFFERED": "1"}
            done = subprocess.run(["bash", "-c", limited], cwd=PACKAGE, env=env, capture_output=True)
            self.assertEqual((done.returncode, done.stderr), (2, b"standard output: it could not be written: File too large\n"))

    def test_a_missing_file_is_named_once(self):
        for name in COMMANDS:
            words = {"distance": ["--order", "1,1"], "compare": [DES]}.get(name, [])
            done = run(name, "/nowhere.box", *words)
            self.assertEqual((done.returncode, done.stderr), (2, b"/nowhere.box: it could not be read: No such file or directory\n"))
