"""Names of entities, the start, and times."""

import unittest

from support import X, calls, from_log, run


def names(*texts):
    return from_log(calls(*texts)).names


class Names(unittest.TestCase):
    def test_escapes_of_strace_and_of_names(self):
        written = r'/w/a b\76c\"d\ne;f\\g\377\t(deleted)'
        texts = [f'write(3<{written}>, "x", 1) = 1', r'rename("/w/a b>c\"d\ne;f\\g\377\t(deleted)", "/w/\0017\x41") = 0']
        old, new = names(*texts)[2:]
        self.assertEqual(old, b'/w/a b>c"d\\ne\\;f\\\\g\xff\t(deleted)')
        self.assertEqual(new, b"/w/\x017A;1")

    def test_a_name_like_that_of_another_generation(self):
        made = names('openat(AT_FDCWD</w>, "a", O_RDWR|O_TRUNC) = 3</w/a>', 'read(4</w/a;1>, "x", 9) = 1')
        self.assertEqual(made[2:], [b"/w/a;1", b"/w/a\\;1"])

    def test_a_file_like_a_process(self):
        made = names('openat(AT_FDCWD</w>, "a", O_RDWR|O_TRUNC) = 3</p/x[10]>')
        self.assertEqual(made, [b"/p/x", b"/p/x[10];1", b"/p/x[10];2"])

    def test_pipes_sockets_and_memory_are_made(self):
        ends = "pipe:[7]", "socket:[8]", "/memfd:m"
        made = names(*(f'read(3<{end}>{"(deleted)" * (end[0] == "/")}, "x", 9) = 1' for end in ends))
        self.assertEqual(made[2:], [b"pipe:[7];1", b"socket:[8];1", b"/memfd:m;1"])

    def test_names_are_taken_from_the_working_folder(self):
        texts = ['chdir("/w/d") = 0', 'rename("a", "../b") = 0', "fchdir(3</w/e>) = 0", 'rename("a", "b") = 0']
        self.assertEqual(names(*texts)[2:], [b"/w/d/a", b"/w/b;1", b"/w/e/a", b"/w/e/b;1"])
        texts = ['openat(AT_FDCWD</v>, "x", O_RDONLY) = -1 ENOENT (No such file)', 'rename("a", "b") = 0']
        self.assertEqual(names(*texts)[2:], [b"/v/a", b"/v/b;1"])
        texts += ['openat(AT_FDCWD</u>, "x", O_RDONLY) = -1 ENOENT (No such file)', 'rename("a", "b") = 0']
        self.assertEqual(names(*texts)[4:], [b"/u/a", b"/u/b;1"])

    def test_processes(self):
        log = calls("fork() = 11", "fork() = 12", 'execve("/p/y", [...], 0x1) = 0', "fork() = 13", "fork() = 11") + (
            '11 6.000000 execve("/p/z", [...], 0x1) = 0\n'
            '20 6.000000 read(3</w/a>, "x", 9) = 1\n'
            '21 6.000000 execve("/p/z", [...], 0x1) = 0\n'
        )
        subjects = [name for name in from_log(log).names if name.endswith((b"]", b"];1", b"];2"))]
        self.assertEqual(
            subjects,
            [b"/p/y[10];1", b"/p/x[11];1", b"/p/x[12];1", b"/p/y[13];1", b"/p/z[11];1", b"[20]", b"/p/z[21]"],
        )

    def test_a_number_used_twice(self):
        log = calls("fork() = 11", "fork() = 11")
        self.assertEqual(from_log(log).names[2:], [b"/p/x[11];1", b"/p/x[11];2"])

    def test_a_log_that_begins_later(self):
        log = calls('read(3</w/a>, "x", 9) = 1').split("\n", 1)[1]
        self.assertEqual(from_log(log).names, [b"/w/a", b"[10]"])
        log = '10 4.000000 getpid() = 10\n' + calls()
        self.assertEqual(from_log(log).names, [b"/p/x", b"/p/x[10]"])

    def test_own_program(self):
        self.assertEqual(names('execve("/proc/self/exe", [...], 0x1) = 0'), [b"/p/x", X.encode()])


class Times(unittest.TestCase):
    def test_times_are_the_clock_s(self):
        clock = ["5.000000", "5.009999", "5.014000", "5.028000", "5.016000", "5.032000", "4.000000"]
        log = "".join(f'10 {at} read(3</w/a>, ""..., 9) = 9\n' for at in clock)
        times = [record[5] for record in from_log(log).records]
        self.assertEqual(times, [0, 0, 1, 1, 2, 3, 3, 4, 4])

    def test_time_counts_from_the_first_line(self):
        recorded = from_log('10 1794945364.990000 getpid() = 10\n10 1794945365.010000 read(3</w/a>, ""..., 9) = 9\n')
        self.assertEqual(recorded.start, "2026-11-17T19:56:04.98")
        self.assertEqual(recorded.shown()[-1], "read 0 1 3")

    def test_the_clock_set_back_at_once(self):
        recorded = from_log('10 9.000000 getpid() = 10\n10 5.000000 read(3</w/a>, ""..., 9) = 9\n')
        self.assertEqual(recorded.shown()[-1], "read 0 1 1")

    def test_the_start_file(self):
        done, recorded = run(log=calls('read(3</w/a>, "x", 9) = 1'))
        self.assertEqual(done.returncode, 0)
        self.assertEqual(recorded.start, "1970-01-01T00:00:04.99\n")
