#!/usr/bin/env python3
"""writable.py on planted tables: of `size`, no data, data that is set, and a buffer that starts as zeros; of `nm`, names that are asked for."""
import unittest

import writable

HEAD = "   text\t   data\t    bss\t    dec\t    hex\tfilename\n"
NONE = "  91234\t      0\t      0\t  91234\t  16462\tsatmegwo.o (ex libsatmegwo.a)\n"
SET = "  91234\t      8\t      0\t  91242\t  1646a\tcounted.o (ex libsatmegwo.a)\n"
ZEROS = "  91234\t      0\t   1024\t  92258\t  16862\tbuffer.o (ex libsatmegwo.a)\n"


class Writable(unittest.TestCase):
    def test_no_data(self):
        self.assertEqual(writable.faults(HEAD + NONE + NONE), [])
        self.assertEqual(len(writable.objects(HEAD + NONE + NONE)), 2)

    def test_a_variable_that_is_set(self):
        self.assertEqual(writable.faults(HEAD + NONE + SET), ["counted.o (ex libsatmegwo.a) has 8 bytes of data and 0 that start as zeros"])

    def test_a_buffer_of_zeros(self):
        self.assertEqual(writable.faults(HEAD + ZEROS + NONE), ["buffer.o (ex libsatmegwo.a) has 0 bytes of data and 1024 that start as zeros"])

    def test_names_from_outside(self):
        table = "\nsatmegwo.o:\n                 U memcpy\n                 U memset\n"
        self.assertEqual(writable.not_there("target/staticlib/libsatmegwo.a", table), [])
        self.assertEqual(writable.not_there("target/staticlib/libsatmegwo_parts.a", table), ["asks for memcpy, which is more than C.md says"])
        self.assertEqual(writable.not_there("libsatmegwo.a", table + "                 U memmove\n"), ["asks for memmove, which is more than C.md says"])


if __name__ == "__main__":
    unittest.main()
