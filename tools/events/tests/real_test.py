"""The log of a real run, logs/files, with all calls; and that log with lines removed or cut."""

import gzip
import os
import random
import unittest

from log_conversion import Refused
from support import TOOLS, behind, from_log, run

LOG = gzip.decompress((TOOLS / "logs" / "files.log.gz").read_bytes())
FOLDER = b"/srv/sleep/"

MADE = [
    b"montage;1",
    b"montage;2",
    b"old/sorted;1",
    b"new/sorted;1",
    b"count;1",
    b"count;2",
    b"copy;1",
    b"night's \"first\" report\\; <1>;1",
    b"two\\nlines;1",
    b"link;1",
    b"caf\xe9;1",
    b"line;1",
    b"received;1",
    b"last;1",
]
STOOD = [b"files", b"log"]


class Real(unittest.TestCase):
    @classmethod
    def setUpClass(cls):
        cls.recorded = from_log(LOG)
        cls.behind = behind(cls.recorded)

    def depends(self, name, *others):
        return [FOLDER + other in self.behind[FOLDER + name] for other in others]

    def test_it_is_recorded_whole(self):
        done, recorded = run(log=LOG)
        self.assertEqual((done.returncode, done.stderr), (0, "from-strace: 75 entities, 649 events\n"))
        self.assertEqual(recorded.start, "2026-11-17T19:56:04.43\n")
        self.assertEqual(recorded.records[-1][5], 44)

    def test_names(self):
        below = {name for name in self.recorded.names if name.startswith(FOLDER)}
        self.assertEqual(below, {FOLDER + name for name in MADE + STOOD})
        shell = os.path.realpath(b"/usr/bin/sh")
        self.assertEqual(self.recorded.names[:2], [shell, shell + b"[24774];1"])
        subjects = [record for record in self.recorded.records if record[:2] == (0, 1)]
        forks = [record for record in self.recorded.records if record[0] == 4]
        self.assertEqual(len(subjects), len(forks) + 1)

    def test_dependence(self):
        report = b"night's \"first\" report\\; <1>;1"
        self.assertEqual(self.depends(report, b"new/sorted;1", b"old/sorted;1"), [True, False])
        self.assertEqual(self.depends(b"two\\nlines;1", report), [True])
        self.assertEqual(self.depends(b"count;2", b"copy;1", b"count;1"), [True, False])
        self.assertEqual(self.depends(b"caf\xe9;1", b"montage;1", b"montage;2"), [True, False])
        self.assertEqual(self.depends(b"montage;2", b"montage;1"), [True])
        self.assertEqual(self.depends(b"received;1", b"line;1", b"montage;2", b"copy;1"), [True, True, False])
        self.assertEqual(self.depends(b"log", b"copy;1"), [True])
        self.assertEqual(self.depends(b"link;1", b"copy;1", b"montage;1"), [True, True])
        self.assertEqual(self.depends(b"last;1", b"montage;1"), [False])

    def test_lines_removed_or_cut(self):
        lines = LOG.splitlines(keepends=True)
        chance = random.Random(1)
        for number in range(340):
            first = chance.randrange(len(lines))
            part = lines[first : first + chance.randrange(1, 500)] if number < 300 else list(lines)
            for _ in range(chance.randrange(1, 20)):
                place = chance.randrange(len(part))
                part[place] = damaged(part[place], chance)
            try:
                from_log(b"".join(part))
            except Refused:
                self.assertLess(number, 300)


def damaged(line, chance):
    """The line, removed, cut at its end or at its beginning, or with a byte changed."""
    place = chance.randrange(len(line) + 1)
    changed = line[:place] + chance.choice([b'"', b"<", b">", b"(", b")", b"\\"]) + line[place + 1 :]
    return chance.choice([b"", line[:place], line[:place] + b"\n", line[place:], changed])
