"""Results as data: the CSV and the JSON of every command against the library's answers, and the JSON against its schema."""
import copy
import csv
import importlib.util
import io
import json
import os
import pathlib
import tempfile
import unittest
import unittest.mock

from satmegwo import Box, sheets, sum_nonlinearity
from satmegwo.commands import COMMANDS
from satmegwo.library import version

from . import schema
from .places import ROOT, example
from .test_command import run

NAMES = ("example", "des-s1", "present", "aes")


def box_file(name):
    return str(ROOT / "examples" / f"{name}.box")


def told(*words, status=0):
    """The JSON that a command prints."""
    done = run(*words, "--json")
    assert (done.returncode, done.stderr == b"") == (status, status == 0), done.stderr
    return json.loads(done.stdout)


def lines(*words, status=0):
    """The lines of the CSV that a command prints: the heading, and the others."""
    done = run(*words, "--csv")
    assert done.returncode == status, done.stderr
    heading, *others = csv.reader(io.StringIO(done.stdout.decode(), newline=""))
    return heading, others


def numbers(table):
    return [[int(cell) for cell in row] for row in table]


# Words of each command that has JSON, for the box files that they are given.
WORDS = {
    "sheet": [1],
    "compare": [2],
    "distance": [1, "--order", "2,1"],
    "sum": [3, "--limit", "1"],
    "pairs": [1],
    "cells": [1],
    "lat": [1],
    "xor": [1],
    "spectrum": [1, "--combination", "0x1"],
    "counts": [1],
    "improve": [1, "--steps", "1"],
}


def documents():
    """A document of each command, of each of some boxes, and of several files with a refused and an unreadable one."""
    for command, (count, *words) in WORDS.items():
        for name in NAMES[:3]:
            yield told(command, *(count * [box_file(name)]), *words)
    with tempfile.TemporaryDirectory() as folder:
        table = pathlib.Path(folder, "one.csv")
        table.write_text("0\n1\n")
        yield told("sheet", table, "-n", "1", "-m", "1")  # of one output, so that there is no bic
        yield told("sheet", box_file("aes"), "--only", "degree")
        pathlib.Path(folder, "refused.box").write_bytes(b"\3\3")
        yield told("sheet", box_file("aes"), f"{folder}/refused.box", f"{folder}/nowhere", status=2)


def mutated(document):
    """The document with one fault: a member by another name, or a value of another kind. Of long lists the ends alone are taken."""

    def places(value, path):
        if isinstance(value, (dict, list)):
            keys = list(value) if isinstance(value, dict) else sorted({0, len(value) - 1} & set(range(len(value))))
            for key in keys:
                yield (*path, key)
                yield from places(value[key], (*path, key))

    for *path, key in places(document, ()):
        for wrong in ("renamed", "text", "number"):
            changed = copy.deepcopy(document)
            holder = changed
            for step in path:
                holder = holder[step]
            old = holder[key]
            if wrong == "renamed" and isinstance(key, str):
                holder[key + "s"] = holder.pop(key)
                yield changed
            if wrong == "text" and not isinstance(old, str):
                holder[key] = "text"
                yield changed
            if wrong == "number" and (not isinstance(old, int) or isinstance(old, bool)):
                holder[key] = -1000
                yield changed


class Schema(unittest.TestCase):
    def test_every_command_with_json_is_tried(self):
        self.assertEqual(set(WORDS), {name for name, command in COMMANDS.items() if command.has_forms})

    def test_every_document(self):
        tried = list(documents())
        self.assertEqual(len(tried), 3 * len(WORDS) + 3)
        for document in tried:
            self.assertEqual(schema.faults(document), [], document if isinstance(document, list) else document["command"])

    def test_what_is_wrong_is_found(self):
        tried = 0
        for document in documents():
            for wrong in mutated(document):
                self.assertTrue(schema.faults(wrong), wrong)
                tried += 1
        self.assertGreater(tried, 1000)

    def test_by_another_checker(self):
        if not importlib.util.find_spec("jsonschema"):
            self.skipTest("the module jsonschema is not installed: the documents were checked by tests/schema.py alone")
        import jsonschema

        checker = jsonschema.Draft202012Validator
        checker.check_schema(schema.SCHEMA)
        for document in documents():
            checker(schema.SCHEMA).validate(document)
            for place, wrong in enumerate(mutated(document)):
                if place % 20 == 0:
                    self.assertFalse(checker(schema.SCHEMA).is_valid(wrong), wrong)


class Figures(unittest.TestCase):
    def test_sheet(self):
        for name in NAMES:
            box = example(name)
            found = told("sheet", box_file(name))
            self.assertEqual(found["satmegwo"], version())
            self.assertEqual(found["box"], {"file": box_file(name), "n": box.n, "m": box.m, "sha256": box.sha256})
            d, cell, r, degree = box.nonlinearity(), box.largest_cell(), box.autocorrelation(), box.degree()
            self.assertEqual(found["nonlinearity"], {"figure": d.figure, **d.witness._asdict(), "limit": d.limit})
            self.assertEqual(found["xor"], {"figure": cell.figure, **cell.witness._asdict()})
            self.assertEqual(found["autocorrelation"], {"figure": r.figure, **r.witness._asdict(), "limit": r.limit})
            for word, distance in (("sac", box.sac()), ("bic", box.bic())):
                self.assertEqual(found[word], {"figure": distance.figure, **distance.witness._asdict()})
            self.assertEqual(found["degree"], {"figure": degree.figure, "c": degree.witness.c, "limit": degree.limit})
            self.assertEqual((found["complete"], found["bijective"]), (box.complete(), box.bijective()))
            heading, ((file, status, *cells),) = lines("sheet", box_file(name))
            shown = dict(zip(heading[2:], cells))
            self.assertEqual((file, status, heading[:4]), (box_file(name), "accepted", ["file", "status", "n", "m"]))
            self.assertEqual([shown["n"], shown["m"]], [str(box.n), str(box.m)])
            for word in ("nonlinearity", "xor", "autocorrelation", "sac", "bic", "degree"):
                fields = {field: str(value) for field, value in found[word].items()}
                self.assertEqual({key.partition(".")[2]: value for key, value in shown.items() if key.startswith(word + ".")}, fields)
            self.assertEqual(shown["bijective"], "yes" if box.bijective() else "no")

    def test_a_box_of_one_output_has_no_bic(self):
        with tempfile.TemporaryDirectory() as folder:
            table = pathlib.Path(folder, "one,output.csv")
            table.write_text("0\n1\n")
            self.assertIsNone(told("sheet", table, "-n", "1", "-m", "1")["bic"])
            heading, (cells,) = lines("sheet", table, "-n", "1", "-m", "1")
            self.assertEqual((cells[0], cells[heading.index("bic.figure")]), (str(table), ""))

    def test_a_limit_and_some_lines(self):
        found = told("sheet", box_file("des-s1"), "--limit", "0x2", "--only", "nonlinearity,complete")
        self.assertEqual(set(found), {"satmegwo", "command", "box", "nonlinearity", "complete"})
        figure, witness, limit = example("des-s1").nonlinearity(2)
        self.assertEqual(found["nonlinearity"], {"figure": figure, **witness._asdict(), "limit": limit})
        heading, _ = lines("sheet", box_file("des-s1"), "--only", "degree")
        self.assertEqual(heading, ["file", "status", "degree.figure", "degree.c", "degree.limit"])

    def test_the_same_box_has_the_same_sha256_from_a_table(self):
        with tempfile.TemporaryDirectory() as folder:
            table = pathlib.Path(folder, "present.csv")
            table.write_text("\n".join(map(str, example("present"))))
            found = told("sheet", table, "--inputs", "4", "--outputs", "0x4")
            self.assertEqual(found["box"]["sha256"], told("sheet", box_file("present"))["box"]["sha256"])

    def test_distance_and_sum(self):
        box, other = example("des-s1"), example("des-s2")
        figure, (c, d), _, _ = box.dynamic_distance(4, 2)
        fields = {"figure": figure, "c": c, "d": d, "limit": 4, "flips": 2}
        self.assertEqual(told("distance", box_file("des-s1"), "--order", "all,2")["distance"], fields)
        heading, (cells,) = lines("distance", box_file("des-s1"), "--order", "all,0x2")
        self.assertEqual(dict(zip(heading, map(int, cells))), fields)
        figure, (c, masks, b), limit = sum_nonlinearity([box, other], 2)
        found = told("sum", box_file("des-s1"), box_file("des-s2"), "--limit", "2")
        self.assertEqual(found["sum"], {"figure": figure, "c": c, "masks": list(masks), "b": b, "limit": limit})
        self.assertEqual([one["sha256"] for one in found["boxes"]], [box.sha256, other.sha256])
        heading, cells = lines("sum", box_file("des-s1"), box_file("des-s2"), "--limit", "2")
        self.assertEqual((heading, numbers(cells)), (["figure", "c", "w1", "w2", "b", "limit"], [[figure, c, *masks, b, limit]]))

    def test_lists(self):
        for name in NAMES:
            box = example(name)
            found = told("pairs", box_file(name))
            self.assertEqual((found["figure"], found["limit"]), (box.nonlinearity().figure, box.limit))
            self.assertEqual(found["pairs"], [pair._asdict() for pair in box.nearest_pairs()])
            heading, cells = lines("pairs", box_file(name), "--limit", "2")
            self.assertEqual((heading, numbers(cells)), (["c", "w", "b"], list(map(list, box.nearest_pairs(2)))))
            found = told("cells", box_file(name))
            self.assertEqual(found["figure"], box.largest_cell().figure)
            self.assertEqual(found["cells"], [cell._asdict() for cell in box.largest_cells()])
            heading, cells = lines("cells", box_file(name))
            self.assertEqual((heading, numbers(cells)), (["a", "beta"], list(map(list, box.largest_cells()))))

    def test_tables(self):
        for name in NAMES:
            box = example(name)
            for command, axes, table in (("lat", ("c", "w"), box.lat()), ("xor", ("a", "beta"), box.ddt())):
                row, column = axes
                self.assertEqual(told(command, box_file(name))[command], {"row": row, "column": column, "values": table})
                heading, cells = lines(command, box_file(name))
                self.assertEqual(heading, [f"{row}\\{column}", *map(str, range(len(table[0])))])
                self.assertEqual(numbers(cells), [[at, *values] for at, values in enumerate(table)])
            distances = box.distances()[1:]
            counts = {"c": list(range(1, 2**box.m)), "distance": distances}
            self.assertEqual(told("counts", box_file(name))["counts"], counts)
            heading, cells = lines("counts", box_file(name))
            self.assertEqual((heading, numbers(cells)), (["c", "distance"], [[c, d] for c, d in enumerate(distances, 1)]))

    def test_ddt_is_another_name(self):
        self.assertEqual(told("ddt", box_file("present")), told("xor", box_file("present")))
        self.assertEqual(run("ddt", box_file("present")).stdout, run("xor", box_file("present")).stdout)

    def test_spectrum(self):
        box = example("des-s1")
        for words, c in (([], box.nonlinearity().witness.c), (["--combination", "0xA"], 10), (["--combination", "10"], 10)):
            self.assertEqual(told("spectrum", box_file("des-s1"), *words)["spectrum"], {"c": c, "values": box.spectrum(c)})
            heading, cells = lines("spectrum", box_file("des-s1"), *words)
            self.assertEqual((heading, numbers(cells)), (["c", "w", "value"], [[c, w, value] for w, value in enumerate(box.spectrum(c))]))

    def test_what_is_too_wide_for_a_picture_or_a_table(self):
        with tempfile.TemporaryDirectory() as folder:
            for m, drawn, given in ((8, 0, 0), (9, 2, 0), (16, 2, 0), (17, 2, 2)):
                table = pathlib.Path(folder, f"{m}.csv")
                table.write_text(f"0\n{2**m - 1}\n")
                for command in ("lat", "xor", "counts") if m != 16 else ("xor",):
                    words = (command, table, "-n", "1", "-m", m)
                    done = run(*words)
                    self.assertEqual((done.returncode, b"as data (--csv or --json) it is given up to 16" in done.stderr), (drawn, drawn == 2))
                    for form in ("--csv", "--json"):
                        done = run(*words, form)
                        self.assertEqual((done.returncode, done.stdout == b""), (given, given == 2), (words, form))

    def test_two_forms_do_not_go_together(self):
        done = run("lat", box_file("example"), "--csv", "--json")
        self.assertEqual((done.returncode, done.stdout), (2, b""))
        self.assertIn(b"not allowed with", done.stderr)

    def test_a_file_name_that_is_no_text(self):
        with tempfile.TemporaryDirectory() as folder:
            path = os.path.join(os.fsencode(folder), b"in\xff.box")
            pathlib.Path(os.fsdecode(path)).write_bytes(example("present").to_bytes())
            self.assertEqual(told("sheet", os.fsdecode(path))["box"]["file"], os.fsdecode(path))


class Improve(unittest.TestCase):
    def test_improve(self):
        box = example("des-s1")
        found = told("improve", box_file("des-s1"))
        for swap in found["swaps"]:
            raising = box.raising_swap()
            self.assertEqual((swap["lower"], swap["higher"], swap["nonlinearity"]), raising)
            box = box.swapped(raising.lower, raising.higher)
        self.assertIsNone(box.raising_swap())
        self.assertEqual((found["finished"], found["improved"]["sha256"]), (True, box.sha256))
        self.assertEqual(found["improved"]["rows"], list(box))
        self.assertEqual(found["nonlinearity"]["before"], example("des-s1").nonlinearity().figure)
        self.assertEqual(found["nonlinearity"]["after"], box.nonlinearity().figure)
        heading, cells = lines("improve", box_file("des-s1"))
        self.assertEqual((heading, cells[0]), (["step", "lower", "higher", "nonlinearity"], ["0", "", "", "14"]))
        self.assertEqual(numbers(cells[1:]), [[at, *swap.values()] for at, swap in enumerate(found["swaps"], 1)])
        few = told("improve", box_file("des-s1"), "--steps", "2")
        self.assertEqual((few["finished"], few["swaps"]), (False, found["swaps"][:2]))
        self.assertEqual(Box(few["improved"]["rows"], 6, 4).nonlinearity().figure, few["nonlinearity"]["after"])
        none = told("improve", box_file("aes"))
        self.assertEqual((none["swaps"], none["finished"], none["improved"]["rows"]), ([], True, list(example("aes"))))


class Several(unittest.TestCase):
    def setUp(self):
        folder = tempfile.TemporaryDirectory()
        self.addCleanup(folder.cleanup)
        self.good, self.refused, self.lost = box_file("present"), f"{folder.name}/refused.box", f"{folder.name}/lost.box"
        pathlib.Path(self.refused).write_bytes(b"\3\3")

    def test_text(self):
        done = run("sheet", self.good, self.refused, self.lost, box_file("aes"))
        sheets = [example(name).sheet() for name in ("present", "aes")]
        self.assertEqual(
            done.stdout.decode(),
            f"accepted {self.good}\n{sheets[0]}refused 10 {self.refused}\nunreadable {self.lost}\naccepted {box_file('aes')}\n{sheets[1]}",
        )
        self.assertEqual(done.returncode, 2)
        first, second = done.stderr.decode().splitlines()
        self.assertEqual(first, f"{self.refused}: it has 2 bytes, and a box file of 3 inputs has 34 (refused 10: a box file has a wrong length)")
        self.assertEqual(second, f"{self.lost}: it could not be read: No such file or directory")

    def test_the_exit_status_is_the_worst(self):
        for files, status in (
            ([self.good, self.good], 0),
            ([self.good, self.refused], 1),
            ([self.refused, self.good], 1),
            ([self.lost, self.refused], 2),
            ([self.refused, self.lost, self.good], 2),
        ):
            self.assertEqual(run("sheet", *files).returncode, status, files)

    def test_csv(self):
        heading, rows = lines("sheet", self.good, self.refused, self.lost, status=2)
        self.assertEqual([row[:2] for row in rows], [[self.good, "accepted"], [self.refused, "refused 10"], [self.lost, "unreadable"]])
        self.assertEqual({len(row) for row in rows}, {len(heading)})
        self.assertEqual(rows[0], lines("sheet", self.good)[1][0])
        self.assertEqual(set(rows[1][2:] + rows[2][2:]), {""})

    def test_json(self):
        found = told("sheet", self.good, self.refused, self.lost, status=2)
        self.assertEqual(found[0], told("sheet", self.good))
        self.assertEqual([one["error"]["refused"] for one in found[1:]], [10, None])
        self.assertEqual([one["error"]["status"] for one in found[1:]], [1, 2])
        self.assertEqual([one["error"]["file"] for one in found[1:]], [self.refused, self.lost])

    def test_ctrl_c(self):
        for words, told_in_words in (
            (["sheet", self.good, self.good], "of one FILE, with --state KEPT"),
            (["sheet", self.good], "with --state KEPT the same command"),
            (["compare", self.good, self.good], "stopped\n"),
        ):
            with unittest.mock.patch.object(sheets, "sheet_of", side_effect=KeyboardInterrupt):
                done = run(*words)
            self.assertEqual((done.returncode, done.stdout), (130, b""))
            self.assertIn(told_in_words, done.stderr.decode())

    def test_what_does_not_go_together(self):
        for words, told_in_words in (
            ([self.good, self.good, "--state", self.lost], "a state file is of one box"),
            (["-", "-"], "standard input can be one box only"),
        ):
            done = run("sheet", *words, given=example("present").to_bytes())
            self.assertEqual((done.returncode, done.stdout), (2, b""))
            self.assertIn(told_in_words, done.stderr.decode())
        self.assertFalse(os.path.exists(self.lost))


class Compared(unittest.TestCase):
    def test_two_boxes(self):
        one, other = "des-s1", "des-s2"
        found = told("compare", box_file(one), box_file(other))
        sheets = [told("sheet", box_file(name)) for name in (one, other)]
        self.assertEqual(found["sheets"], sheets)
        words = [word for word in sheets[0] if word not in ("satmegwo", "command", "box")]
        figures = [[value["figure"] if isinstance(value, dict) else value for value in (sheet[word] for word in words)] for sheet in sheets]
        self.assertEqual(found["differ"], [word for word, first, second in zip(words, *figures) if first != second])
        self.assertIs(found["equal"], False)
        heading, rows = lines("compare", box_file(one), box_file(other))
        self.assertEqual(heading, ["field", box_file(one), box_file(other), "differs"])
        headings, (first,) = lines("sheet", box_file(one))
        second = lines("sheet", box_file(other))[1][0]
        self.assertEqual([row[:3] for row in rows], [list(row) for row in zip(headings[2:], first[2:], second[2:])])
        self.assertEqual([row[3] for row in rows], ["yes" if row[1] != row[2] else "no" for row in rows])

    def test_the_text(self):
        text = run("compare", box_file("des-s1"), box_file("des-s1")).stdout.decode()
        self.assertTrue(text.endswith("\nno figure differs; the boxes are equal\n"))
        text = run("compare", box_file("example"), box_file("aes")).stdout.decode()
        rows = {row.split()[0]: row for row in text.splitlines()[1:]}
        self.assertEqual(set(rows), {"box", *WORDS_OF_SHEET, "differ:"})
        self.assertIn("4 3 3", rows["xor"])
        self.assertTrue(rows["xor"].endswith("  other witness"))
        self.assertTrue(rows["nonlinearity"].endswith("  differs"))
        self.assertTrue(rows["complete"].endswith("yes"))
        self.assertEqual(rows["differ:"], "differ: box, nonlinearity, autocorrelation, sac, bic, degree")

    def test_another_limit(self):
        box = Box([0] * 4, 2, 17)
        with tempfile.TemporaryDirectory() as folder:
            files = [f"{folder}/{one.m}.box" for one in (box, Box([0] * 4, 2, 16))]
            pathlib.Path(files[0]).write_bytes(box.to_bytes())
            pathlib.Path(files[1]).write_bytes(Box([0] * 4, 2, 16).to_bytes())
            rows = run("compare", *files).stdout.decode().splitlines()
            self.assertTrue(next(row for row in rows if row.startswith("nonlinearity")).endswith("  other limit"))
            self.assertEqual(rows[-1], "differ: box")
            rows = run("compare", *files, "--limit", "4", "--only", "nonlinearity").stdout.decode().splitlines()
            self.assertEqual((len(rows), rows[-1]), (3, "no figure differs"))


WORDS_OF_SHEET = {"nonlinearity", "xor", "autocorrelation", "sac", "bic", "degree", "complete", "bijective"}
