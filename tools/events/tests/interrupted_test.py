"""Ctrl-C while a command is recorded, with a stand-in for strace."""

import os
import pathlib
import signal
import subprocess
import tempfile
import time
import unittest

from support import TOOLS, calls

# Writes the log to the path after -o, and ends as a command that was interrupted does.
STRACE = """#!/bin/sh
while [ "$1" != -o ]; do shift; done
cat "$LOG" > "$2"
trap 'exit 130' INT
touch "$LOG.began"
while :; do sleep 0.05; done
"""


class Interrupted(unittest.TestCase):
    def test_what_was_done_is_recorded(self):
        with tempfile.TemporaryDirectory() as scratch:
            folder = pathlib.Path(scratch)
            (folder / "strace").write_text(STRACE)
            (folder / "strace").chmod(0o755)
            (folder / "log").write_text(calls('read(3</w/a>, ""..., 9) = 9'))
            environment = {"PATH": f"{folder}:{os.environ['PATH']}", "LOG": str(folder / "log")}
            command = [TOOLS / "from-strace", str(folder / "out.slt"), "x"]
            recorder = subprocess.Popen(
                command, env=environment, start_new_session=True, stderr=subprocess.PIPE, text=True
            )
            while not (folder / "log.began").exists():
                self.assertIsNone(recorder.poll())
                time.sleep(0.01)
            os.killpg(recorder.pid, signal.SIGINT)
            said = recorder.communicate()[1]
            self.assertEqual((recorder.returncode, said), (130, "from-strace: 3 entities, 2 events\n"))
            self.assertTrue((folder / "out.slt").exists())
