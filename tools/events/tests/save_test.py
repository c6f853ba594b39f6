"""The three files of a recording: all there, or none, and the event file last."""

import os
import pathlib
import subprocess
import tempfile
import unittest
from unittest import mock

from recording import Recording
from support import TOOLS, calls

ALL = ["out.names", "out.slt", "out.start"]


class Save(unittest.TestCase):
    def setUp(self):
        folder = tempfile.TemporaryDirectory()
        self.addCleanup(folder.cleanup)
        self.folder = pathlib.Path(folder.name)
        self.out = str(self.folder / "out.slt")

    def there(self):
        return sorted(os.listdir(self.folder))

    def test_the_event_file_comes_last(self):
        seen = []

        def rename(part, path, rename=os.rename):
            seen.append((pathlib.Path(path).name, "out.slt" in self.there()))
            rename(part, path)

        for _ in range(2):
            with mock.patch("recording.os.rename", rename):
                Recording(500).save(self.out)
            self.assertEqual(self.there(), ALL)
        self.assertEqual(seen, [("out.names", False), ("out.start", False), ("out.slt", False)] * 2)
        self.assertEqual((self.folder / "out.start").read_text(), "1970-01-01T00:00:05.00\n")

    def test_nothing_is_left_if_one_cannot_be_written(self):
        for call in ("fsync", "rename"):
            for place in range(3):
                results = [None] * place + [OSError(28, "No space left on device")]
                with mock.patch(f"recording.os.{call}", side_effect=results):
                    self.assertRaises(OSError, Recording(500).save, self.out)
                self.assertEqual(self.there(), [])

    def test_an_earlier_recording_stays_if_the_new_one_has_no_room(self):
        Recording(500).save(self.out)
        with mock.patch("recording.os.fsync", side_effect=OSError(28, "No space left on device")):
            self.assertRaises(OSError, Recording(600).save, self.out)
        self.assertEqual(self.there(), ALL)
        self.assertEqual((self.folder / "out.start").read_text(), "1970-01-01T00:00:05.00\n")

    def test_what_is_no_file_is_not_replaced(self):
        (self.folder / "log").write_text(calls())
        os.mkfifo(self.out)
        command = [TOOLS / "from-strace", "--log", self.folder / "log", self.out]
        done = subprocess.run(command, capture_output=True, text=True)
        self.assertEqual((done.returncode, done.stderr.count("\n")), (4, 1))
        self.assertEqual(self.there(), ["log", "out.slt"])

    def test_what_is_no_file_beside_it_is_seen_first(self):
        (self.folder / "log").write_text(calls())
        Recording(500).save(self.out)
        (self.folder / "out.names").unlink()
        (self.folder / "out.names").mkdir()
        command = [TOOLS / "from-strace", "--log", self.folder / "log", self.out]
        done = subprocess.run(command, capture_output=True, text=True)
        self.assertEqual(done.returncode, 4)
        self.assertIn("out.names", done.stderr)
        self.assertEqual(self.there(), ["log", *ALL])
