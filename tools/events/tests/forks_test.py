"""Processes whose fork the log does not see end, or does not have."""

import unittest

from support import X, calls, from_log, run

SECRET = 'read(3</w/secret>, "x", 1) = 1'
OUT = '{} 6.000000 write(4</w/out>, "x", 1) = 1\n'
CUT = "vfork( <unfinished ...>"
THREAD = "clone(child_stack=0x7f, flags=CLONE_VM|CLONE_THREAD <unfinished ...>"
READ = f"/w/secret read {X}"


class Forks(unittest.TestCase):
    def gives(self, log, *lines, losses=0):
        recorded = from_log(log)
        self.assertEqual(recorded.events(), list(lines))
        self.assertEqual(len(recorded.losses), losses)
        return recorded

    def test_the_log_ends_before_the_fork(self):
        recorded = self.gives(calls(SECRET, CUT) + OUT.format(11), READ, "/p/x[11];1 write /w/out")
        self.assertIn("fork 1 3 101", recorded.shown())

    def test_the_parent_is_killed(self):
        ends = "10 {0}.000000 <... vfork resumed>) = ?\n10 {0}.000000 +++ killed by SIGKILL +++\n"
        begun, written = calls(SECRET, CUT), OUT.format(11)
        for log in (begun + written + ends.format(7), begun + ends.format(5) + written):
            recorded = self.gives(log, READ, "/p/x[11];1 write /w/out")
            self.assertIn("fork 1 3 101", recorded.shown())

    def test_a_thread(self):
        self.gives(calls(SECRET, THREAD) + OUT.format(11), READ, f"{X} write /w/out")

    def test_a_fork_that_is_begun_again(self):
        again = calls(SECRET, "fork() = ? ERESTARTNOINTR (To be restarted)", "fork() = 11")
        self.gives(again + OUT.format(11), READ, "/p/x[11];1 write /w/out")

    def test_one_fork_makes_one_process(self):
        log = calls(SECRET, CUT) + OUT.format(11) + OUT.format(12)
        self.gives(log, READ, "/p/x[11];1 write /w/out", "[12] write /w/out", losses=1)

    def test_two_forks_that_may_be_meant(self):
        log = calls("fork() = 11", SECRET, CUT) + f"11 6.000000 {CUT}\n" + OUT.format(12)
        for part in (log, log.split("\n", 1)[1]):
            self.assertEqual(len(from_log(part).losses), 1)

    def test_no_fork(self):
        done, recorded = run(log=calls(SECRET) + OUT.format(11))
        self.assertEqual(done.returncode, 3)
        self.assertIn("whose fork the log lacks: 1", done.stderr)
        self.assertEqual(recorded.events(), [READ, "[11] write /w/out"])

    def test_no_fork_in_a_log_of_what_was_there_before(self):
        log = calls(SECRET).split("\n", 1)[1] + OUT.format(11)
        self.gives(log, "/w/secret read [10]", "[11] write /w/out")
