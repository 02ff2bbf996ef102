"""Sweeps in parts: the plain call's reply on threads, on processes and on a cluster; states, progress, stopping and going on."""
import collections
import concurrent.futures
import contextlib
import importlib.util
import io
import itertools
import json
import os
import pathlib
import pickle
import random
import signal
import subprocess
import sys
import tempfile
import time
import unittest
import unittest.mock
from concurrent.futures import Executor, Future, ProcessPoolExecutor, ThreadPoolExecutor
from multiprocessing import get_context

import satmegwo
from satmegwo import Box, Refusal, definitions, library, progress, states, sweeping
from satmegwo.states import State, UnusableState
from satmegwo.sweeping import Covered, Question, Sweep, count_up_to, place_of

from .places import PACKAGE, ROOT, example
from .test_command import run


def some_box(seed: int, n: int, m: int) -> Box:
    chance = random.Random(seed)
    return Box([chance.randrange(2**m) for _ in range(2**n)], n, m, f"made-{seed}")


@contextlib.contextmanager
def in_small_parts(combinations: int = 50):
    """Meanwhile every sweep is cut, into parts of so many combinations."""
    with contextlib.ExitStack() as patched:
        for name, value in (("SMALL", 0), ("FIRST_PART", combinations), ("SMALLEST_PART", combinations), ("SECONDS", 0)):
            patched.enter_context(unittest.mock.patch.object(sweeping, name, value))
        yield


def questions():
    """A question of each figure, with limits from one output to all."""
    box = some_box(1, 5, 9)
    added = (some_box(2, 3, 8), some_box(3, 4, 8), some_box(4, 2, 8))
    for limit in (1, 3, 9):
        yield Question("nonlinearity", (box,), limit)
        yield Question("autocorrelation", (box,), limit)
        yield Question("distance", (box,), limit, 2)
    for limit, count in ((8, 1), (8, 3), (2, 3)):
        yield Question("sum", added[:count], limit)


def asked(question: Question, **how):
    """The question as a user of the package asks it."""
    if question.figure == "sum":
        return satmegwo.sum_nonlinearity(question.boxes, question.limit, **how)
    box = question.boxes[0]
    if question.figure == "distance":
        return box.dynamic_distance(question.limit, question.flips, **how)
    return getattr(box, question.figure)(question.limit, **how)


class Counting(unittest.TestCase):
    def test_combinations_within_a_limit(self):
        for limit in range(1, 8):
            counts = list(itertools.accumulate(definitions.ones(c) <= limit for c in range(1, 128)))
            self.assertEqual([count_up_to(last, limit) for last in range(1, 128)], counts)
            for count in range(1, counts[-1] + 1):
                self.assertEqual(place_of(count, limit, 127), counts.index(count) + 1)
            self.assertEqual(place_of(counts[-1] + 1, limit, 127), 127)
        self.assertEqual((count_up_to(2**32 - 1, 4), count_up_to(2**32 - 1, 32), count_up_to(0, 4)), (41448, 2**32 - 1, 0))

    def test_ranges(self):
        chance = random.Random(5)
        for _ in range(300):
            covered, held = Covered(), set()
            for _ in range(chance.randrange(12)):
                first = chance.randrange(1, 40)
                last = chance.randrange(first, min(first + 12, 41))
                covered.add(first, last)
                held |= set(range(first, last + 1))
            self.assertEqual({c for first, last in covered.ranges for c in range(first, last + 1)}, held)
            self.assertTrue(all(last + 1 < first for (_, last), (first, _) in zip(covered.ranges, covered.ranges[1:])))
            gaps = [c for first, last in covered.gaps(40) for c in range(first, last + 1)]
            self.assertEqual(gaps, sorted(set(range(1, 41)) - held))
            self.assertEqual(covered.count(2), sum(definitions.ones(c) <= 2 for c in held))


class OneReply(unittest.TestCase):
    """The plain call's reply, however the work is shared."""

    def same(self, executor=None, **how):
        with in_small_parts():
            for question in questions():
                with self.subTest(question.figure, limit=question.limit):
                    with unittest.mock.patch.object(sweeping, "SMALL", 2**40):
                        plain = asked(question)
                    self.assertEqual(asked(question, executor=executor, **how), plain)

    def test_on_threads(self):
        self.same()
        self.same(workers=1)
        with ThreadPoolExecutor(3) as threads:
            self.same(threads)

    def test_on_processes(self):
        with ProcessPoolExecutor(2, mp_context=get_context("spawn")) as processes:
            self.same(processes)

    def test_on_a_cluster(self):
        if not importlib.util.find_spec("distributed"):
            print("left out: the sweep on a Dask cluster, since python3-distributed is not installed", file=sys.stderr)
            self.skipTest("python3-distributed is not installed")
        asked_there = (
            "from distributed import Client, LocalCluster\n"
            "from tests.test_sweeping import OneReply\n"
            "with LocalCluster(n_workers=2, threads_per_worker=1, dashboard_address=None) as cluster, Client(cluster) as client:\n"
            "    OneReply().same(client.get_executor())\n"
            "    print('the same')\n"
        )
        done = subprocess.run([sys.executable, "-B", "-c", asked_there], cwd=PACKAGE, capture_output=True, text=True, timeout=100)
        self.assertEqual(done.stdout, "the same\n", done.stderr)

    def test_few_combinations_are_one_plain_call(self):
        with unittest.mock.patch.object(sweeping, "Sweep", side_effect=AssertionError):
            for name in ("aes-round", "aes", "cast-s1"):
                example(name).nonlinearity()
                example(name).autocorrelation()

    def test_all_parts_are_merged_by_the_library(self):
        calls = collections.Counter()

        def counted(name, *arguments):
            calls[name] += 1
            return library.call(name, *arguments)

        with in_small_parts(), unittest.mock.patch.object(sweeping, "call", counted):
            some_box(1, 5, 9).nonlinearity(9)
            some_box(1, 5, 9).autocorrelation(9)
        for part, merge in (("nonlinearity_between", "merge_least"), ("autocorrelation_between", "merge_largest")):
            self.assertGreater(calls[merge], 3)
            self.assertEqual(calls[merge], calls[part] - 1)  # one part is only asked to see whether it is refused
        self.assertEqual(set(calls), {"nonlinearity_between", "merge_least", "autocorrelation_between", "merge_largest"})

    def test_a_box_is_kept_by_pickle(self):
        box = example("des-s1")
        again = pickle.loads(pickle.dumps(box))
        self.assertEqual((again, again.name, again.nonlinearity()), (box, "des-s1.box", box.nonlinearity()))


class Refused(unittest.TestCase):
    def test_by_the_plain_call_s_numbers(self):
        box, other = some_box(1, 5, 9), some_box(2, 3, 8)
        with in_small_parts():
            for number, call in (
                (6, lambda: box.nonlinearity(0)),
                (6, lambda: box.nonlinearity(10)),
                (6, lambda: box.autocorrelation(2**32 + 1)),
                (6, lambda: box.dynamic_distance(9, 0)),
                (6, lambda: box.dynamic_distance(9, 6)),
                (11, lambda: satmegwo.sum_nonlinearity([])),
                (11, lambda: satmegwo.sum_nonlinearity(5 * [box], 9)),
                (12, lambda: satmegwo.sum_nonlinearity([box, other], 8)),
            ):
                with self.assertRaises(Refusal) as caught:
                    call()
                self.assertEqual(caught.exception.number, number)

    def test_no_answer_where_a_combination_is_missing(self):
        question = Question("nonlinearity", (some_box(1, 5, 9),), 9)
        for ranges in ([], [(1, 510)], [(2, 511)], [(1, 200), (202, 511)]):
            with ThreadPoolExecutor(1) as threads, self.assertRaisesRegex(RuntimeError, "and not 1 to 511"):
                Sweep(question, Covered(ranges), question.between(1, 1), threads, 1).answer()
        left_out = unittest.mock.patch.object(Covered, "gaps", lambda covered, end: iter([(1, 100), (102, end)]))
        with in_small_parts(), left_out, self.assertRaisesRegex(RuntimeError, "cover"):
            question.boxes[0].nonlinearity(9)

    def test_a_worker_of_another_version(self):
        with self.assertRaisesRegex(library.MissingLibrary, "version 1.0.0 of the library, and 9.9.9"):
            sweeping.part(Question("nonlinearity", (some_box(1, 5, 9),), 9), 1, 1, "9.9.9")


class Late(Executor):
    """An executor that does a part only when somebody waits for one, and counts how many there are."""

    def __init__(self, workers):
        self._max_workers, self.waiting, self.most = workers, [], 0

    def submit(self, run, *arguments):
        self.waiting.append((Future(), run, arguments))
        self.most = max(self.most, len(self.waiting))
        return self.waiting[-1][0]

    def work(self):
        future, run, arguments = self.waiting.pop(0)
        future.set_result(run(*arguments))

    def awaited(self):
        """Meanwhile whoever waits for a part has the oldest one done."""

        def wait(futures, **how):
            self.work()
            return concurrent.futures.wait(futures, **how)

        return unittest.mock.patch.object(sweeping, "wait", wait)


class Executors(unittest.TestCase):
    def test_two_parts_for_each_worker(self):
        with in_small_parts(20):
            for workers in (1, 3):
                late, plain = Late(workers), some_box(1, 5, 9).nonlinearity(9)
                with late.awaited():
                    self.assertEqual(some_box(1, 5, 9).nonlinearity(9, executor=late), plain)
                self.assertEqual(late.most, 2 * workers)

    def test_how_many_work(self):
        with ThreadPoolExecutor(3) as threads:
            self.assertEqual(sweeping.workers_of(threads), 3)
        of_dask = unittest.mock.Mock(spec=["_client"])
        of_dask._client.ncores.return_value = {"a": 2, "b": 4}
        self.assertEqual(sweeping.workers_of(of_dask), 6)
        self.assertEqual(sweeping.workers_of(unittest.mock.Mock(spec=["num_workers"], num_workers=7)), 7)
        self.assertEqual(sweeping.workers_of(unittest.mock.Mock(spec=[])), sweeping.cores())

    def test_parts_go_towards_their_time(self):
        sizes = []

        class Measured(Late):
            def work(self):
                future, _, (question, first, last, _) = self.waiting.pop(0)
                sizes.append(last - first + 1)
                future.set_result(((last - first + 1) * 1e-6, question.between(first, last)))

        measured = Measured(1)
        with unittest.mock.patch.object(sweeping, "SECONDS", 0.05), measured.awaited():
            some_box(6, 2, 19).nonlinearity(19, executor=measured)
        self.assertEqual(sizes[:2], 2 * [sweeping.FIRST_PART])
        self.assertEqual(set(sizes[2:-1]), {50_000})


class Stopped(Exception):
    pass


class States(unittest.TestCase):
    def setUp(self):
        folder = tempfile.TemporaryDirectory()
        self.addCleanup(folder.cleanup)
        self.path = pathlib.Path(folder.name, "kept")
        self.box = some_box(1, 5, 9)
        patched = in_small_parts(30)
        patched.__enter__()
        self.addCleanup(patched.__exit__, None, None, None)

    def stop(self, question, share=0.3, **how):
        """Runs a sweep until this share of it is done."""

        def tell(done, total, best, left):
            if done >= share * total:
                raise Stopped

        with self.assertRaises(Stopped):
            asked(question, state=self.path, progress=tell, workers=1, **how)

    def done(self, entry):
        return json.loads(self.path.read_text())["figures"][entry]["done"]

    def test_stopped_and_taken_up(self):
        for question in questions():
            if question.total < 200:
                continue
            with self.subTest(question.figure, limit=question.limit):
                self.path.unlink(missing_ok=True)
                self.stop(question)
                (entry,) = json.loads(self.path.read_text())["figures"]
                before = Covered([tuple(held) for held in self.done(entry)]).count(question.limit)
                self.assertLess(before, question.total)
                parts = []

                def counted(question, first, last, wanted):
                    parts.append(count_up_to(last, question.limit) - count_up_to(first - 1, question.limit))
                    return 0.0, question.between(first, last)

                with unittest.mock.patch.object(sweeping, "part", counted):
                    found = asked(question, state=self.path)
                self.assertEqual(sum(parts), question.total - before)
                self.assertEqual(found, asked(question))
                self.assertEqual(self.done(entry), [[1, question.end]])
                with unittest.mock.patch.object(sweeping, "part", side_effect=AssertionError):
                    self.assertEqual(asked(question, state=self.path), found)

    def test_one_file_for_several_figures(self):
        for question in (Question("nonlinearity", (self.box,), 9), Question("autocorrelation", (self.box,), 9)):
            self.stop(question)
        self.box.dynamic_distance(9, 1, state=self.path)
        self.box.dynamic_distance(8, 2, state=self.path)
        figures = json.loads(self.path.read_text())["figures"]
        self.assertEqual(list(figures), ["nonlinearity", "autocorrelation", "distance 9,1", "distance 8,2"])
        self.assertEqual(self.box.nonlinearity(9, state=self.path), self.box.nonlinearity(9))
        self.assertEqual(self.box.autocorrelation(9, state=self.path), self.box.autocorrelation(9))

    def test_a_worker_that_fails(self):
        good = sweeping.part

        def failing(question, first, last, wanted):
            if first > 250:
                raise ConnectionError("the worker is gone")
            return good(question, first, last, wanted)

        with unittest.mock.patch.object(sweeping, "part", failing), self.assertRaises(ConnectionError):
            self.box.nonlinearity(9, state=self.path, workers=1)
        self.assertGreater(self.done("nonlinearity")[0][1], 100)
        self.assertEqual(self.box.nonlinearity(9, state=self.path), self.box.nonlinearity(9))

    def unusable(self, words, call):
        before = self.path.read_bytes()
        with self.assertRaisesRegex(UnusableState, words) as caught:
            call()
        self.assertIn("name another file, or remove this one", str(caught.exception))
        self.assertEqual(self.path.read_bytes(), before)  # it may be somebody else's

    def test_of_another_sweep(self):
        self.stop(Question("nonlinearity", (self.box,), 9))
        other = Box([self.box(0) ^ 1, *self.box.rows[1:]], 5, 9)
        self.unusable("is of another box", lambda: other.nonlinearity(9, state=self.path))
        self.unusable("is of another box", lambda: Box(self.box.rows, 5, 10).nonlinearity(9, state=self.path))
        self.unusable("within 9 outputs, and 8 are asked", lambda: self.box.nonlinearity(8, state=self.path))
        self.unusable("is of other boxes", lambda: satmegwo.sum_nonlinearity([self.box, other], 9, state=self.path))
        with unittest.mock.patch.object(states, "version", lambda: "1.0.1"):
            self.unusable("written with version 1.0.0 of the library, and this is 1.0.1", lambda: self.box.nonlinearity(9, state=self.path))
        with unittest.mock.patch.object(states, "FORMAT", 2):
            self.unusable("has format 1, and this program writes and reads format 2", lambda: self.box.nonlinearity(9, state=self.path))
        # A name is no part of a box.
        self.assertEqual(Box(self.box.rows, 5, 9).nonlinearity(9, state=self.path), self.box.nonlinearity(9))

    def test_damaged(self):
        self.stop(Question("nonlinearity", (self.box,), 9))
        whole = self.path.read_bytes()
        for at in range(0, len(whole) - 1, 7):
            with self.subTest(cut=at):
                self.path.write_bytes(whole[:at])
                self.unusable("is damaged", lambda: self.box.nonlinearity(9, state=self.path))
        digits = [at for at, letter in enumerate(whole) if letter in b"0123456789"]
        for at in digits[1:]:  # the first is that of the format
            with self.subTest(changed=at):
                self.path.write_bytes(whole[:at] + (b"1" if whole[at : at + 1] == b"0" else b"0") + whole[at + 1 :])
                self.unusable("is damaged", lambda: self.box.nonlinearity(9, state=self.path))
        for other in (b"null\n", b"[]", b"{}", b"\xff\xfe", b"[" * 100_000, self.box.to_bytes()):
            self.path.write_bytes(other)
            self.unusable("is damaged, or is no state", lambda: self.box.nonlinearity(9, state=self.path))

    def test_what_nobody_found(self):
        """Entries that are written with a right checksum, and that no sweep writes."""
        self.stop(Question("nonlinearity", (self.box,), 9))
        content = json.loads(self.path.read_text())
        content.pop("checksum")
        entry = content["figures"]["nonlinearity"]
        flag, figure, c, w, b = entry["best"]
        for name, wrong in (
            ("best", [flag, figure - 1, c, w, b]),
            ("best", [flag, figure, c ^ 1, w, b]),
            ("best", [flag, figure, 512, w, b]),
            ("best", [flag, figure, c, w, 1 - b]),
            ("best", [flag, figure, c, w]),
            ("best", 5 * [0]),
            ("best", [flag, figure, c, w, -1]),
            ("best", "a"),
            ("done", [[1, 512]]),
            ("done", [[0, 100]]),
            ("done", [[100, 99]]),
            ("done", [[1, 50], [51, 100]]),
            ("done", [[60, 100], [1, 20]]),
            ("done", [1, 100]),
            ("limit", None),
        ):
            with self.subTest(name, wrong=wrong):
                forged = {**content, "figures": {"nonlinearity": {**entry, name: wrong}}}
                forged["checksum"] = states._checksum({**forged})
                self.path.write_text(json.dumps(forged))
                self.unusable("is damaged", lambda: self.box.nonlinearity(9, state=self.path))

    def test_what_cannot_be_written_is_told_before_the_work(self):
        with unittest.mock.patch.object(sweeping.Sweep, "hand_out") as handed_out, self.assertRaises(OSError):
            self.box.nonlinearity(9, state="/nowhere/kept")
        handed_out.assert_not_called()

    def test_a_state_is_written_beside_and_takes_its_place(self):
        with unittest.mock.patch("os.replace", side_effect=OSError("no")), self.assertRaises(OSError):
            State(self.path, [self.box]).keep(Question("nonlinearity", (self.box,), 9), Covered(), 5 * [0])
        self.assertEqual(os.listdir(self.path.parent), [])


class Terminal(io.StringIO):
    def isatty(self):
        return True


class Telling(unittest.TestCase):
    def test_a_callable(self):
        told = []
        with in_small_parts():
            found = some_box(1, 5, 9).nonlinearity(9, progress=lambda *words: told.append(words), workers=1)
        self.assertEqual([done for done, *_ in told], sorted(done for done, *_ in told))
        self.assertEqual((told[-1][:3], told[-1][3]), ((511, 511, found), 0.0))
        self.assertTrue(all(total == 511 and best.limit == 9 and left >= 0 for _, total, best, left in told))

    def test_a_line_on_a_terminal_and_one_a_minute_elsewhere(self):
        best = satmegwo.Nonlinearity(74, satmegwo.Pair(1, 2, 0), 32)
        words = "25.0%, 1:02:05 left, nonlinearity 74 so far, of 4,294,967,295 combinations"
        for stream, minute, told in (
            (Terminal(), 60.0, f"\r\x1b[K[#####...............] {words}"[: len("\r\x1b[K") + 79]),
            (io.StringIO(), 0.0, words + "\n"),
            (io.StringIO(), 60.0, ""),
        ):
            line = progress.Progress(stream)
            line.share("nonlinearity", 2**30, 2**32 - 1, best, 3725)
            sized = unittest.mock.patch("shutil.get_terminal_size", lambda: os.terminal_size((80, 24)))
            with unittest.mock.patch.object(progress, "MINUTE", minute), sized:
                line._tell()
            self.assertEqual(stream.getvalue(), told)

    def test_true_is_a_line_on_standard_error(self):
        def slow(question, first, last, wanted):
            time.sleep(0.02)
            return 1.0, question.between(first, last)

        for asked_for, wanted in ((True, True), (False, False), (None, False)):
            with in_small_parts(), unittest.mock.patch("sys.stderr", Terminal()) as error:
                with unittest.mock.patch.object(progress, "PATIENCE", 0.001), unittest.mock.patch.object(sweeping, "part", slow):
                    some_box(1, 5, 9).nonlinearity(9, progress=asked_for, workers=1)
            self.assertEqual("left, nonlinearity" in error.getvalue(), wanted)
        self.assertEqual([progress.clock(seconds) for seconds in (0, 59.6, 3599, 3600)], ["0:00", "1:00", "59:59", "1:00:00"])


class CtrlC(unittest.TestCase):
    """The command, stopped by the signal of Ctrl-C."""

    def setUp(self):
        folder = tempfile.TemporaryDirectory()
        self.addCleanup(folder.cleanup)
        self.folder = pathlib.Path(folder.name)

    def command(self, *words):
        return [sys.executable, "-B", "-m", "satmegwo", *map(str, words)]

    def stopped(self, kept, pause, *words):
        """Starts the command, and stops it a moment after its sweep has begun; gives how long it took to end."""
        words = self.command(*words, "--state", kept)
        started = subprocess.Popen(words, cwd=PACKAGE, stdout=subprocess.PIPE, stderr=subprocess.PIPE, text=True)
        while not kept.exists() and started.poll() is None:
            time.sleep(0.01)
        time.sleep(pause)
        began = time.monotonic()
        started.send_signal(signal.SIGINT)
        out, error = started.communicate(timeout=30)
        self.assertEqual((started.returncode, out), (130, ""), error)
        self.assertIn(f"stopped; what was done is kept in {kept}, and the same command goes on from there\n", error)
        self.assertNotIn("Traceback", error)
        return time.monotonic() - began

    def test_stop_and_go_on(self):
        box, kept = some_box(7, 8, 23), self.folder / "kept"
        path = self.folder / "made.box"
        path.write_bytes(box.to_bytes())
        words = ("sheet", path, "--limit", "all", "--only", "nonlinearity", "-j", "1")
        self.stopped(kept, 0, *words)
        (first, last), *_ = json.loads(kept.read_text())["figures"]["nonlinearity"]["done"] or [(1, 0)]
        self.assertLess(last, 2**23 - 1)
        done = subprocess.run(self.command(*words, "--state", kept), cwd=PACKAGE, capture_output=True, text=True)
        plain = Question("nonlinearity", (box,), 23).plain()
        self.assertEqual((done.returncode, done.stdout), (0, " ".join(map(str, ["nonlinearity", *plain, 23])) + "\n"), done.stderr)
        self.assertEqual(json.loads(kept.read_text())["figures"]["nonlinearity"]["done"], [[1, 2**23 - 1]])

    def test_it_ends_soon(self):
        cast = [ROOT / "examples" / f"cast-s{k}.box" for k in (1, 2, 3, 4)]
        whole_sheet, whole_sum = ("sheet", cast[0], "--limit", "all"), ("sum", *cast, "--limit", "all")
        for words in (whole_sheet, whole_sum, ("distance", cast[0], "--order", "all,1")):
            with self.subTest(words[0]):
                # About a second where the machine does nothing else.
                self.assertLess(self.stopped(self.folder / words[0], 0.3, *words), 10)

    def test_within_a_call_that_has_no_parts(self):
        words = self.command("sheet", ROOT / "examples" / "cast-s1.box", "--limit", "all", "--only", "degree")
        started = subprocess.Popen(words, cwd=PACKAGE, stderr=subprocess.PIPE, text=True)
        self.assertIn("degree of 8 by 32 within 32 outputs ..", started.stderr.readline())
        began = time.monotonic()
        started.send_signal(signal.SIGINT)
        _, error = started.communicate(timeout=30)
        self.assertEqual(started.returncode, 130)
        self.assertIn("stopped, and nothing is kept: with --state KEPT the same command can be stopped and goes on\n", error)
        self.assertLess(time.monotonic() - began, 5)


class Command(unittest.TestCase):
    """The lines of the commands that sweep."""

    def setUp(self):
        folder = tempfile.TemporaryDirectory()
        self.addCleanup(folder.cleanup)
        self.box = some_box(8, 4, 18)
        self.path = pathlib.Path(folder.name, "made.box")
        self.path.write_bytes(self.box.to_bytes())

    def printed(self, *words):
        done = run(*words)
        self.assertEqual((done.returncode, done.stderr), (0, b""))
        return done.stdout.decode()

    def test_a_sheet_with_another_limit(self):
        for limit, given in ((18, "all"), (18, 18), (3, 3), (4, 4)):
            figures = {name: getattr(self.box, name)(limit) for name in ("nonlinearity", "autocorrelation", "degree")}
            wanted = self.box.sheet().splitlines()
            for at, line in enumerate(wanted):
                name = line.split()[0]
                if name in figures:
                    wanted[at] = " ".join(map(str, (name, figures[name].figure, *figures[name].witness, limit)))
            self.assertEqual(self.printed("sheet", self.path, "--limit", given).splitlines(), wanted)
            degree_and_xor = [wanted[2], wanted[6]]
            asked_for = self.printed("sheet", self.path, "--limit", given, "--only", "degree,xor")
            self.assertEqual(asked_for.splitlines(), degree_and_xor)
        self.assertEqual(self.printed("sheet", self.path), self.box.sheet())
        self.assertEqual(self.printed("sheet", self.path, "--only", "box"), "box 4 18\n")

    def test_in_parts(self):
        kept = self.path.with_name("kept")
        plain = self.printed("sheet", self.path, "--limit", "all")
        counted = unittest.mock.patch.object(sweeping, "ThreadPoolExecutor", wraps=ThreadPoolExecutor)
        with in_small_parts(2**14), counted as threads:
            self.assertEqual(self.printed("sheet", self.path, "--limit", "all", "-j", "3", "--state", kept), plain)
        self.assertEqual([call.args for call in threads.call_args_list], [(3,), (3,), (1,)])  # the degree has one part
        self.assertEqual(list(json.loads(kept.read_text())["figures"]), ["nonlinearity", "autocorrelation"])

    def test_distance(self):
        for order, given in (((18, 1), "all,1"), ((2, 4), "2,4")):
            figure, (c, d), i, j = self.box.dynamic_distance(*order)
            self.assertEqual(self.printed("distance", self.path, "--order", given), f"distance {figure} {c} {d} {i} {j}\n")

    def test_sum(self):
        other = self.path.with_name("other.box")
        other.write_bytes(some_box(9, 3, 18).to_bytes())
        for words, limit in (((), 4), (("--limit", "2"), 2), (("--limit", "all", "-j", "2"), 18)):
            figure, (c, (v, w), b), _ = satmegwo.sum_nonlinearity([self.box, some_box(9, 3, 18)], limit)
            self.assertEqual(self.printed("sum", self.path, other, *words), f"sum {figure} {c} {v} {w} {b} {limit}\n")

    def failed(self, status, words, *asked_for):
        done = run(*asked_for)
        self.assertEqual((done.returncode, done.stdout), (status, b""), done.stderr)
        self.assertIn(words, done.stderr.decode())

    def test_what_is_turned_down(self):
        path, foreign = self.path, self.path.with_name("foreign")
        foreign.write_text("{}")
        self.failed(1, "refused 6", "sheet", path, "--limit", "19")
        self.failed(1, "refused 6", "distance", path, "--order", "all,5")
        self.failed(1, "refused 11", "sum", *5 * [path])
        self.failed(1, f"{path} + {ROOT}/examples/aes.box: the boxes have 18, 8 outputs", "sum", path, ROOT / "examples" / "aes.box")
        self.failed(2, "/nowhere.box: ", "sum", path, "/nowhere.box")
        self.failed(2, "standard input can be one box only", "sum", path, "-", "-")
        self.failed(2, "neither a number of outputs", "sheet", path, "--limit", "most")
        self.failed(2, "3 is no order, such as 2,1", "distance", path, "--order", "3")
        self.failed(2, "the lines of a sheet are box, nonlinearity, xor", "sheet", path, "--only", "nonlinearity,score")
        self.failed(2, "0 is less than 1", "sheet", path, "-j", "0")
        self.failed(2, "is damaged, or is no state of a sweep", "sheet", path, "--limit", "all", "--state", foreign)
        self.failed(2, f"--state {path} names the file that is read", "sheet", path, "--limit", "all", "--state", path)
        self.failed(2, f"-o {path} names the file that is read", "sum", ROOT / "examples" / "aes.box", path, "-o", path)
        self.assertEqual(self.path.read_bytes(), self.box.to_bytes())

    def test_ctrl_c_without_a_state(self):
        with in_small_parts(), unittest.mock.patch.object(sweeping.Sweep, "gather", side_effect=KeyboardInterrupt):
            self.failed(130, "stopped, and nothing is kept: with --state", "sheet", self.path, "--limit", "all")
