"""Calls at work together: what one process does while a call of another is under way."""

import unittest

from support import STARTED, behind, from_log


def reader_after(call, result, meanwhile, then):
    """The names behind process 12, which reads a file after a call that others came between."""
    lines = [
        (10, STARTED),
        (10, 'write(3</w/a>, "x", 1) = 1'),
        (10, 'write(3</w/b>, "x", 1) = 1'),
        (10, f"{call} <unfinished ...>"),
        (11, meanwhile),
        (10, f"<... {call.split('(')[0]} resumed>) = {result}"),
        (12, f'read(3<{then}>, "x", 1) = 1'),
    ]
    log = "".join(f"{thread} 5.000000 {text}\n" for thread, text in lines)
    return behind(from_log(log))[b"[12]"]


class Meanwhile(unittest.TestCase):
    def test_a_reader_that_waits_while_the_file_is_renamed(self):
        recorded = from_log(
            f"10 5.000000 {STARTED}\n"
            "11 5.010000 read(3</w/a>,  <unfinished ...>\n"
            '10 5.020000 rename("/w/a", "/w/b") = 0\n'
            '11 5.030000 <... read resumed>"x", 9) = 1\n'
        )
        self.assertIn("/w/a read [11]", recorded.events())

    def test_written_while_others_change_its_name_or_empty_it(self):
        write_a, write_b = 'write(4</w/a>, "x", 1) = 1', 'write(4</w/b>, "x", 1) = 1'
        emptied = 'openat(AT_FDCWD</w>, "a", O_WRONLY|O_TRUNC'
        made = 'openat(AT_FDCWD</w>, "a", O_WRONLY|O_CREAT|O_EXCL'
        for call, result, meanwhile, then in (
            (emptied, "4</w/a>", write_a, "/w/a"),
            (made, "4</w/a>", write_a, "/w/a"),
            ('truncate("/w/a", 0', "0", write_a, "/w/a"),
            ('unlink("/w/a"', "0", write_a, "/w/a"),
            ('rename("/w/a", "/w/b"', "0", write_a, "/w/a"),
            ('rename("/w/a", "/w/b"', "0", write_a, "/w/b"),
            ('rename("/w/a", "/w/b"', "0", write_b, "/w/b"),
        ):
            with self.subTest(call=call, then=then):
                self.assertIn(b"[11]", reader_after(call, result, meanwhile, then))

    def test_not_written_meanwhile(self):
        emptied = 'openat(AT_FDCWD</w>, "a", O_WRONLY|O_TRUNC'
        found = reader_after(emptied, "4</w/a>", 'write(4</w/b>, "x", 1) = 1', then="/w/a")
        self.assertNotIn(b"[11]", found)
        self.assertNotIn(b"/w/a", found)
