#!/usr/bin/env python3
"""Tests of words.py on planted texts: each word that is missing in a place is found, and what only looks like a word is none."""
import unittest

import words


def planted():
    """A text for each file: a word to a line, in README.md a row of a table."""
    texts = {}
    for place, files in words.PLACES.items():
        held = [word for word, places, _ in words.WORDS if place in places]
        texts[files[0]] = "".join(f"| {word} | ours |\n" if place == "README" else f"{word}\n" for word in held)
        texts.update({file: "other words\n" for file in files[1:]})
    return texts


class Words(unittest.TestCase):
    def test_a_right_tree(self):
        self.assertEqual(words.faults(planted()), [])

    def test_each_word_in_each_place(self):
        for word, places, _ in words.WORDS:
            for place in places:
                with self.subTest(word=word, place=place):
                    texts, file = planted(), words.PLACES[place][0]
                    texts[file] = "\n".join(line for line in texts[file].splitlines() if line not in (word, f"| {word} | ours |"))
                    found = words.faults(texts)
                    self.assertEqual(len(found), 1, found)
                    self.assertIn(f"no {word} (", found[0])
                    self.assertIn(file, found[0])

    def test_any_file_of_a_place_will_do(self):
        texts, (first, second) = planted(), words.PLACES["Python"]
        texts[first], texts[second] = texts[second], texts[first]
        self.assertEqual(words.faults(texts), [])

    def test_a_short_word_may_be_written_out(self):
        for written, faults in (("bit independence criterion", 0), ("bit independence", 1)):
            texts = planted()
            texts["python/README.md"] = texts["python/README.md"].replace("BIC", written)
            self.assertEqual(len(words.faults(texts)), faults, written)

    def test_a_file_that_is_missing(self):
        texts = planted()
        del texts["rust/src/lib.rs"]
        self.assertEqual(words.faults(texts), ["no file rust/src/lib.rs"])

    def test_in_readme_a_word_stands_in_a_table(self):
        texts = planted()
        texts["README.md"] = texts["README.md"].replace("| DDT | ours |", "The DDT is elsewhere.")
        self.assertEqual(len(words.faults(texts)), 1)

    def test_whole_words(self):
        self.assertFalse(words.has("the nonlinearity, the non-linearity", "linearity"))
        self.assertTrue(words.has("(linearity)", "linearity"))
        self.assertFalse(words.has("a component of a function", "component function"))
        self.assertTrue(words.has("Component functions, S-boxes", "component function"))
        self.assertTrue(words.has("Component functions, S-boxes", "S-box"))
        self.assertFalse(words.has("an sbox", "S-box"))

    def test_capitals(self):
        self.assertFalse(words.has("the command lat, a plate", "LAT"))
        self.assertTrue(words.has("its LAT.", "LAT"))

    def test_a_word_over_two_lines(self):
        for leader in ("", " * ", "    /// ", "//! ", "# "):
            self.assertTrue(words.has(f"{leader}the differential\n{leader}uniformity of it", "differential uniformity"), leader)
        self.assertFalse(words.has("differential\n\nx uniformity", "differential uniformity"))


if __name__ == "__main__":
    unittest.main()
