"""What does not fit into an event file, and exit statuses."""

import subprocess
import tempfile
import unittest
from unittest import mock

from support import TOOLS, Recorded, calls, from_log, run

MANY = "".join(f'10 5.000000 read(3</w/{i}>, ""..., 9) = 9\n' for i in range(4100)) * 2


def count(recorded):
    kinds = [record[0] for record in recorded.records]
    return kinds.count(0), len(kinds) - kinds.count(0)


class Full(unittest.TestCase):
    def test_it_stops_at_the_first_entity_that_does_not_fit(self):
        done, recorded = run(log=MANY)
        self.assertEqual(done.returncode, 3)
        self.assertEqual(count(recorded), (4096, 4095))
        for words in ("line 4096 of the log", "read by 10", "1970-01-01T00:00:05.00", "4,105 calls", "4,096 entities"):
            self.assertIn(words, done.stderr)

    def test_it_keeps_going(self):
        done, recorded = run("--keep-going", log=MANY)
        self.assertEqual(done.returncode, 3)
        self.assertEqual(count(recorded), (4096, 2 * 4095))
        self.assertIn("are dropped: 10", done.stderr)

    def test_events_and_times(self):
        log = calls(*['read(3</w/a>, "x", 9) = 1'] * 9)
        with mock.patch("event_file.MOST_EVENTS", 7):
            recorded = from_log(log)
            self.assertEqual(count(recorded), (3, 7))
            self.assertIn("line 8 ", recorded.losses[0])
            self.assertIn("; 3 calls", recorded.losses[0])
            self.assertEqual(count(from_log(log, keep_going=True)), (3, 7))
        recorded = from_log(log + '10 43000000.000000 read(3</w/a>, "x", 9) = 1\n')
        self.assertEqual(count(recorded), (3, 10))
        self.assertIn("line 11 ", recorded.losses[0])

    def test_an_event_that_does_not_fit_leaves_no_entity(self):
        with mock.patch("event_file.MOST_ENTITIES", 3):
            recorded = from_log(calls('rename("/w/a", "/w/b") = 0', "fork() = 11"))
        self.assertEqual(recorded.names, [b"/p/x", b"/p/x[10];1", b"/w/a"])

    def test_links_that_do_not_fit(self):
        with mock.patch("event_file.MOST_ENTITIES", 3):
            recorded = from_log(calls('link("/w/a", "/w/b") = 0'))
        self.assertEqual(count(recorded), (3, 2))
        self.assertIn("linked files", recorded.losses[0])

    def test_nothing_lost(self):
        done, recorded = run(log=calls('read(3</w/a>, "x", 9) = 1'))
        self.assertEqual((done.returncode, done.stderr), (0, "from-strace: 3 entities, 2 events\n"))

    def test_a_place_that_cannot_be_written(self):
        with tempfile.NamedTemporaryFile("w") as log:
            log.write(calls())
            log.flush()
            command = [TOOLS / "from-strace", "--log", log.name, "/nowhere/out.slt"]
            done = subprocess.run(command, capture_output=True, text=True)
        self.assertEqual((done.returncode, done.stderr.count("\n")), (4, 1))

    def test_wrong_arguments(self):
        done = subprocess.run([TOOLS / "from-strace", "out.slt"], capture_output=True, text=True)
        self.assertEqual(done.returncode, 2)


class Worked(unittest.TestCase):
    def test_the_worked_trail_has_140_bytes(self):
        with tempfile.NamedTemporaryFile() as out:
            subprocess.run([TOOLS / "worked", out.name], check=True)
            content = out.read()
        self.assertEqual(len(Recorded(content, b"0\n1\n2\n3\n", "").content), 140)
