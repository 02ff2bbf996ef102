#!/usr/bin/env python3
"""prologues.py on planted disassemblies: a frame that is laid out at the start, one that is laid out after a check, and a short one."""
import unittest

import prologues

AT_START = """
0000000000000000 <at_start>:
   0:	push   %rbp
   1:	push   %rbx
   2:	mov    %rsp,%r11
   5:	sub    $0x9000,%r11
   c:	cmp    %r11,%rsp
   f:	ret
"""
AFTER_CHECK = """
0000000000000000 <after_check>:
   0:	mov    %rcx,%r11
   3:	cmp    $0x8,%edi
   6:	ja     40 <after_check+0x40>
   8:	push   %rbx
   9:	mov    %rsp,%r11
   c:	sub    $0x8000,%r11
  13:	mov    %r11,%r13
  16:	ret
"""
SHORT = """
0000000000000000 <short>:
   0:	mov    %rcx,%r11
   3:	cmp    $0x8,%edi
   6:	sub    $0x238,%rsp
   d:	ret
"""


class Prologues(unittest.TestCase):
    def test_a_frame_at_the_start_is_right(self):
        self.assertEqual(prologues.faults(AT_START), [])

    def test_a_long_frame_after_a_check_is_a_fault(self):
        self.assertEqual(prologues.faults(AFTER_CHECK), ["after_check"])

    def test_a_short_frame_touches_no_pages_in_a_loop(self):
        self.assertEqual(prologues.faults(SHORT), [])

    def test_each_function_stands_for_itself(self):
        self.assertEqual(prologues.faults(AT_START + AFTER_CHECK + SHORT), ["after_check"])
        self.assertEqual(len(prologues.functions(AT_START + AFTER_CHECK + SHORT)), 3)


if __name__ == "__main__":
    unittest.main()
