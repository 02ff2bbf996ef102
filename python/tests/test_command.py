"""The command: what it prints, what it writes, and its exit status."""
import contextlib
import io
import os
import pathlib
import signal
import subprocess
import sys
import tempfile
import types
import unittest
import unittest.mock

from satmegwo import Box, command, library, pictures

from .places import EXAMPLES, PACKAGE, ROOT

ROWS = b"3 1 4 0 2 5 6 7"


def run(*words, given=b""):
    """The command in this process: its exit status, and what it wrote to both outputs."""
    given, out, error = io.TextIOWrapper(io.BytesIO(given)), io.TextIOWrapper(io.BytesIO()), io.StringIO()
    with unittest.mock.patch("sys.stdin", given), contextlib.redirect_stdout(out), contextlib.redirect_stderr(error):
        try:
            status = command.main([str(word) for word in words])
        except SystemExit as end:
            status = end.code
        out.flush()
    return types.SimpleNamespace(returncode=status, stdout=out.buffer.getvalue(), stderr=error.getvalue().encode())


def run_alone(*words, given=b"", **how):
    """The command as a process of its own."""
    asked = [sys.executable, "-B", "-m", "satmegwo", *map(str, words)]
    return subprocess.run(
        asked, input=given, stdout=how.pop("stdout", subprocess.PIPE), stderr=subprocess.PIPE, cwd=PACKAGE, **how
    )


class Command(unittest.TestCase):
    def test_sheet(self):
        done = run("sheet", ROOT / "examples" / "aes.box")
        self.assertEqual(
            (done.returncode, done.stdout, done.stderr), (0, (ROOT / "examples" / "aes.sheet").read_bytes(), b"")
        )
        done = run("sheet", "-", "-n", "3", "-m", "3", given=ROWS)
        self.assertEqual((done.returncode, done.stdout), (0, (ROOT / "examples" / "example.sheet").read_bytes()))
        done = run("sheet", "-", given=EXAMPLES[0].read_bytes())
        self.assertEqual(done.stdout, EXAMPLES[0].with_suffix(".sheet").read_bytes())

    def test_as_a_program(self):
        done = run_alone("sheet", "-", "-n", "3", "-m", "3", given=ROWS)
        self.assertEqual((done.returncode, done.stdout), (0, (ROOT / "examples" / "example.sheet").read_bytes()))
        self.failed(1, run_alone("sheet", "-", given=b"\3\3"), "refused 10")

    def test_explain(self):
        box = Box([3, 1, 4, 0, 2, 5, 6, 7], n=3, m=3)
        done = run("explain", "-", "-n", "3", "-m", "3", given=ROWS)
        self.assertEqual((done.returncode, done.stdout.decode()), (0, str(box.explain())))
        done = run(
            "explain",
            "-",
            "-n",
            "3",
            "-m",
            "3",
            "--figure",
            "distance",
            "--limit",
            "3",
            "--flips",
            "2",
            "--html",
            given=ROWS,
        )
        self.assertEqual(
            (done.returncode, done.stdout.decode()), (0, box.explain("distance", i=3, j=2).html(whole=True) + "\n")
        )

    def test_boxfile(self):
        with tempfile.TemporaryDirectory() as folder:
            kept = pathlib.Path(folder, "kept.box")
            done = run("boxfile", "-", "-n", "1", "-m", "1", "-o", kept, given=b"0 1")
            self.assertEqual(
                (done.returncode, done.stdout, kept.read_bytes()), (0, b"", bytes([1, 1, 0, 0, 0, 0, 1, 0, 0, 0]))
            )
            self.assertEqual(run("boxfile", kept).stdout, kept.read_bytes())

    def test_pictures(self):
        box = Box([3, 1, 4, 0, 2, 5, 6, 7], n=3, m=3)
        drawn = {
            "lat": pictures.lat_map,
            "xor": pictures.xor_map,
            "spectrum": pictures.spectrum_bars,
            "counts": pictures.distance_bars,
        }
        for name, draw in drawn.items():
            done = run(name, "-", "-n", "3", "-m", "3", given=ROWS)
            self.assertEqual((done.returncode, done.stdout.decode(), done.stderr), (0, draw(box), b""))
        done = run("spectrum", "-", "-n", "3", "-m", "3", "--combination", "2", given=ROWS)
        self.assertEqual((done.returncode, done.stdout.decode()), (0, pictures.spectrum_bars(box, 2)))
        self.failed(1, run("spectrum", "-", "-n", "3", "-m", "3", "--combination", "8", given=ROWS), "refused 6")
        self.failed(2, run("lat", "-", "-n", "3", "-m", "9", given=ROWS), "up to 8 outputs, and this box has 9")

    def test_words_that_settle(self):
        for words, given in (
            (("--base", "16"), b"3 1 4 0 2 5 6 7"),
            (("--pairs",), b"0,3\n1,1\n2,4\n3,0\n4,2\n5,5\n6,6\n7,7\n"),
            (("--no-pairs",), ROWS),
            (("--lines",), ROWS),
        ):
            self.assertEqual(run("sheet", "-", "-n", "3", "-m", "3", *words, given=given).returncode, 0, words)

    def failed(self, status, done, words):
        self.assertEqual((done.returncode, done.stdout or b""), (status, b""))
        self.assertIn(words, done.stderr.decode())
        self.assertNotIn("Traceback", done.stderr.decode())

    def test_refused(self):
        self.failed(
            1,
            run("sheet", "-", "-n", "3", "-m", "2", given=ROWS),
            "-: the row for input 2 is 4, and 2 outputs end at 3 (refused 4: a row is not below 2^m, or a truth value is above 1)\n",
        )
        self.failed(1, run("sheet", "-", "-n", "4", "-m", "3", given=ROWS), "refused 3")
        self.failed(1, run("sheet", "-", "-n", "9", "-m", "3", given=ROWS), "refused 1")
        self.failed(1, run("sheet", "-", given=b"\3\3"), "refused 10")
        self.failed(1, run("explain", "-", "-n", "3", "-m", "3", "--limit", "4", given=ROWS), "refused 6")
        self.failed(
            1, run("explain", "-", "-n", "3", "-m", "1", "--figure", "bic", given=b"0 1 0 1 1 1 0 0"), "refused 6"
        )

    def test_unreadable(self):
        self.failed(2, run("sheet", "-", given=ROWS), "how many inputs the box has: state it (in the command -n or --inputs)")
        self.failed(2, run("sheet", "-", "-n", "3", given=ROWS), "how many outputs the box has: state it (in the command -m or --outputs)")
        self.failed(2, run("sheet", "-", "-n", "1", "-m", "1", given=b"#NUM! 1"), "line 1, number 1: #NUM!")
        self.failed(2, run("sheet", "-", "-n", "1", "-m", "1", given=b"1 " * 600_000), "longer than")
        self.failed(2, run("sheet", "-", "-n", "1", "-m", "1"), "nothing in it")
        self.failed(2, run("sheet", "/nowhere.txt", "-n", "1", "-m", "1"), "No such file")
        self.failed(2, run("sheet", "/", "-n", "1", "-m", "1"), "directory")
        self.failed(2, run("explain", "-", "-n", "3", "-m", "3", "--figure", "distance", given=ROWS), "--flips")
        self.failed(2, run("explain", "-", "-n", "3", "-m", "3", "--figure", "xor", "--limit", "2", given=ROWS), "xor")
        library.functions.cache_clear()
        self.addCleanup(library.functions.cache_clear)
        with unittest.mock.patch.dict("os.environ", SATMEGWO_LIBRARY="/nowhere.so"):
            self.failed(2, run("sheet", "-", "-n", "3", "-m", "3", given=ROWS), "make shared")
        self.failed(2, run("score", "-"), "invalid choice")

    def test_what_is_read_is_not_written(self):
        with tempfile.TemporaryDirectory() as folder:
            table, link, twin = (pathlib.Path(folder, name) for name in ("in.csv", "link.csv", "twin.csv"))
            table.write_bytes(ROWS)
            link.symlink_to(table)
            os.link(table, twin)
            os.mkdir(os.path.join(folder, "sub"))
            for output in (table, f"{folder}/sub/../in.csv", link, twin):
                with self.subTest(output):
                    done = run("lat", table, "-n", "3", "-m", "3", "-o", output)
                    self.failed(2, done, f"{table}: -o {output} names the file that is read")
                    self.assertEqual((table.read_bytes(), link.is_symlink()), (ROWS, True))
            with open(table, "rb") as given:
                words = [sys.executable, "-B", "-m", "satmegwo", "boxfile", "-", "-n", "3", "-m", "3", "-o", table]
                done = subprocess.run(words, stdin=given, capture_output=True, cwd=PACKAGE)
            self.failed(2, done, f"-: -o {table} names the file that is read")
            self.assertEqual(table.read_bytes(), ROWS)
            self.assertEqual(sorted(os.listdir(folder)), ["in.csv", "link.csv", "sub", "twin.csv"])

    def test_standard_output_by_name(self):
        told = (ROOT / "examples" / "aes.sheet").read_bytes()
        with tempfile.TemporaryDirectory() as folder, contextlib.ExitStack() as back:
            back.callback(os.chdir, os.getcwd())
            os.chdir(folder)
            done = run("sheet", ROOT / "examples" / "aes.box", "-o", "-")
            self.assertEqual((done.returncode, done.stdout, os.listdir(folder)), (0, told, []))
            done = run("sheet", ROOT / "examples" / "aes.box", "-o", "./-")
            self.assertEqual((done.returncode, done.stdout, pathlib.Path("-").read_bytes()), (0, b"", told))
        done = run_alone("sheet", ROOT / "examples" / "aes.box", "-o", "/dev/stdout")
        self.assertEqual((done.returncode, done.stdout), (0, told))

    def test_a_failed_write_names_what_could_not_be_written(self):
        for output, words in (("/dev/full", "No space"), ("/nowhere/out", "No such file"), ("/", "directory")):
            done = run("sheet", EXAMPLES[0], "-o", output)
            self.failed(2, done, f"{output}: it could not be written: ")
            self.assertIn(words, done.stderr.decode())
            self.assertNotIn(str(EXAMPLES[0]), done.stderr.decode())
        with open("/dev/full", "wb") as full:
            self.failed(
                2, run_alone("sheet", EXAMPLES[0], stdout=full), "standard output: it could not be written: No space"
            )

    def test_a_failed_write_leaves_the_old_file(self):
        with tempfile.TemporaryDirectory() as folder:
            kept = pathlib.Path(folder, "kept.svg")
            kept.write_bytes(b"old")
            for output in (kept, kept.with_name("new.svg")):
                # No file may become longer than 1,024 bytes, so the write fails in the middle of the picture.
                limited = f"ulimit -f 1; exec {sys.executable} -B -m satmegwo lat {ROOT}/examples/aes.box -o {output}"
                done = subprocess.run(["bash", "-c", limited], cwd=PACKAGE, capture_output=True)
                self.failed(2, done, f"{output}: it could not be written: File too large")
                self.assertEqual((kept.read_bytes(), os.listdir(folder)), (b"old", ["kept.svg"]))

    def test_what_is_written_takes_the_place_of_the_old(self):
        told = (ROOT / "examples" / "aes.sheet").read_bytes()
        with tempfile.TemporaryDirectory() as folder:
            kept, link, far = (pathlib.Path(folder, name) for name in ("kept", "link", "far"))
            kept.write_bytes(b"old" * 1000)
            kept.chmod(0o640)
            link.symlink_to("kept")
            far.symlink_to("new")
            for output, written in ((kept, kept), (link, kept), (far, pathlib.Path(folder, "new"))):
                self.assertEqual(run("sheet", ROOT / "examples" / "aes.box", "-o", output).returncode, 0)
                self.assertEqual(written.read_bytes(), told)
            self.assertEqual((kept.stat().st_mode & 0o777, link.is_symlink(), far.is_symlink()), (0o640, True, True))
            self.assertEqual(sorted(os.listdir(folder)), ["far", "kept", "link", "new"])
            if os.geteuid() != 0:  # who may write everything is not kept from it by the file's mode
                kept.chmod(0o440)
                done = run("sheet", EXAMPLES[0], "-o", kept)
                self.failed(2, done, f"{kept}: it could not be written: Permission denied")
                self.assertEqual(kept.read_bytes(), told)

    def test_a_file_name_that_is_no_text(self):
        with tempfile.TemporaryDirectory() as folder:
            table = os.path.join(os.fsencode(folder), b"in\xff.csv")
            pathlib.Path(os.fsdecode(table)).write_bytes(ROWS)
            done = run("lat", os.fsdecode(table), "-n", "3", "-m", "3")
            self.assertEqual((done.returncode, done.stderr), (0, b""))
            self.assertIn("in\\udcff.csv", done.stdout.decode())

    def test_what_cannot_be_written(self):
        with open("/dev/full", "wb") as full:
            self.failed(2, run_alone("sheet", EXAMPLES[0], stdout=full), "No space")
        self.failed(2, run("sheet", EXAMPLES[0], "-o", "/nowhere/out"), "No such file")
        closed = subprocess.run(
            ["bash", "-c", f"{sys.executable} -B -m satmegwo sheet - <&-; echo $?"], cwd=PACKAGE, capture_output=True
        )
        self.assertEqual((closed.stdout, closed.stderr), (b"2\n", b"-: standard input is closed\n"))

    def test_a_closed_pipe_ends_it_without_a_word(self):
        reading, writing = os.pipe()
        os.close(reading)
        done = run_alone("sheet", EXAMPLES[0], stdout=writing)
        self.assertEqual((done.returncode, done.stderr), (128 + signal.SIGPIPE, b""))
        os.close(writing)

    def test_help_names_every_command(self):
        told = run("--help").stdout.decode()
        for name in command.COMMANDS:
            self.assertIn(name, told)
            self.assertIn("--base", run(name, "--help").stdout.decode())
