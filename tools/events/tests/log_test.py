"""Any log of strace is read, and nothing of it crashes the recorder."""

import unittest

from support import X, calls, from_log, run

# A shell starts a copier that reads `a` and writes `b`, renames `b` to `c`, and
# starts a reader of `c` in a thread. Lines of calls at work together are split.
COPIER = """\
10 5.000000 execve("/p/x", [...], 0x1) = 0
10 5.010000 mmap(NULL, 9, PROT_READ, MAP_PRIVATE|MAP_ANONYMOUS, -1, 0) = 0x7f00
10 5.010000 mmap(NULL, 9, PROT_READ|PROT_EXEC, MAP_PRIVATE, 3</w/lib>, 0) = 0x7f10
10 5.100000 vfork( <unfinished ...>
11 5.200000 read(3</w/a>, ""..., 9) = 9
11 5.200000 read(3</w/a>, "", 9) = 0
11 5.300000 write(1</w/b>, ""..., 9 <unfinished ...>
10 5.300000 <... vfork resumed>) = 11
11 5.400000 <... write resumed>) = 9
11 5.400000 write(2</dev/null>, ""..., 9) = 9
11 5.400000 +++ exited with 0 +++
10 5.500000 renameat2(AT_FDCWD</w>, "b", AT_FDCWD</w>, "c", 0) = 0
10 5.600000 clone(child_stack=0x1, flags=CLONE_VM|CLONE_THREAD) = 12
12 5.700000 pread64(4</w/c>, ""..., 9, 0) = 9
12 5.800000 unlink("/w/c") = 0
12 5.900000 read(4</w/c>(deleted), ""..., 9) = 9
12 5.950000 write(5</w/c>, ""..., 9) = 9
"""

COPIER_RECORDS = """\
declare object 0
declare subject 1
execve 0 1 1
declare object 2
load 2 1 2
declare subject 3
fork 1 3 11
declare object 4
read 4 3 21
declare object 5
write 3 5 31
read 5 1 51
declare object 6
write 1 6 51
read 6 1 71
read 6 1 91
declare object 7
write 1 7 96
"""

# Calls that the recorder does not know, or knows and has no event of.
OTHERS = [
    "brk(NULL)       = 0x55d0",
    "umask(022) = 022",
    "close(3</w/a>) = 0",
    "lseek(3</w/a>, 0, SEEK_CUR) = 0",
    "fstat(3</w/a>, {st_mode=S_IFREG|0644, st_size=9, ...}) = 0",
    "newfstatat(3</w/a>, \"\", {st_mode=S_IFREG|0644}, AT_EMPTY_PATH) = 0",
    "ioctl(1</dev/pts/0>, TCGETS, {c_iflag=ICRNL|IXON, ...}) = 0",
    "ioctl(3</w/a>, TCGETS, 0x7ffe) = -1 ENOTTY (Inappropriate ioctl for device)",
    "fcntl(3</w/a>, F_DUPFD, 10) = 10</w/a>",
    "dup2(3</w/a>, 1</w/b>) = 1</w/a>",
    "poll([{fd=3</w/a>, events=POLLIN}, {fd=4<pipe:[7]>, events=POLLIN}], 2, -1) = 1 ([{fd=3, revents=POLLIN}])",
    "epoll_ctl(4<anon_inode:[eventpoll]>, EPOLL_CTL_ADD, 3</w/a>, {events=EPOLLIN}) = 0",
    "read(4<anon_inode:[eventfd]>, \"\\1\"..., 8) = 8",
    "getdents64(3</w>, 0x7f /* 5 entries */, 32768) = 120",
    "splice(3</w/a>, NULL, 4<pipe:[7]>, NULL, 9, 0) = -1 EINVAL (Invalid argument)",
    "read(3, 0x7ffe, 9) = -1 EBADF (Bad file descriptor)",
    "read(3</w/a>, 0x7ffe, 9) = ? ERESTARTSYS (To be restarted if SA_RESTART is set)",
    "write(3</w/a>, \"x\", 9) = ? ERESTARTSYS (To be restarted if SA_RESTART is set)",
    "rename(\"a\", \"b\") = -1 ENOENT (No such file or directory)",
    "unlinkat(AT_FDCWD</w>, \"folder\", AT_REMOVEDIR) = 0",
    "openat(AT_FDCWD</w>, \"a\", O_RDONLY|O_CLOEXEC) = 3</w/a>",
    "wait4(-1, [{WIFEXITED(s) && WEXITSTATUS(s) == 0}], 0, NULL) = 11",
    "mmap(NULL, 4096, PROT_NONE, MAP_PRIVATE|21<<MAP_HUGE_SHIFT, -1, 0) = 0x7f00",
    "syscall_0x1ff(0x1, 0x2, 0x3) = -1 ENOSYS (Function not implemented)",
    "--- SIGCHLD {si_signo=SIGCHLD, si_code=CLD_EXITED, si_pid=11} ---",
    "--- stopped by SIGSTOP ---",
    "exit_group(0)   = ?",
    "+++ exited with 0 +++",
]

SUPERSEDED = """\
10 5.000000 execve("/p/x", [...], 0x1) = 0
10 5.010000 clone(child_stack=0x1, flags=CLONE_VM|CLONE_THREAD) = 12
10 5.020000 read(0</w/a>,  <unfinished ...>
12 5.030000 execve("/p/y", [...], 0x1 <unfinished ...>
10 5.040000 +++ superseded by execve in pid 12 +++
10 5.050000 <... execve resumed>) = 0
"""


FAR = '10 9999999999999.000000 read(3</w/a>, "x", 9) = 1\n'


class Reading(unittest.TestCase):
    def test_a_small_log(self):
        self.assertEqual(from_log(COPIER).shown(), COPIER_RECORDS.splitlines())

    def test_other_calls_are_left_out(self):
        recorded = from_log(calls(*OTHERS))
        self.assertEqual(recorded.shown(), ["declare object 0", "declare subject 1", "execve 0 1 1"])
        self.assertEqual(recorded.losses, [])

    def test_every_call_with_any_descriptors(self):
        names = "read sendfile splice tee copy_file_range mmap ioctl ftruncate fchdir openat clone rename none".split()
        ends = ["", "3</w/a>", "3</w/a>, 4</w/b>", "3, 4", "AT_FDCWD</w>", "NULL"]
        results = ["0", "1", "-1 EIO (error)", "?", "3</w/a>", "0x7f00"]
        texts = [f"{name}({end}) = {result}" for name in names for end in ends for result in results]
        lines = "".join(f"10 5.000000 {text}\n" for text in texts)
        from_log("10 5.000000 read(3</w/a>, \"x\", 9) = 1\n" + lines)

    def test_data_is_not_taken_for_a_descriptor(self):
        text = r'write(1</w/b>, "3</w/no>, 4</w/no> \"<unfinished ...>", 40) = 40'
        self.assertEqual(from_log(calls(text)).events(), [f"{X} write /w/b"])

    def test_a_result_is_not_found_in_a_path(self):
        recorded = from_log(calls('openat(AT_FDCWD</w>, "a) = 5", O_RDWR|O_TRUNC) = 3</w/a) = 5>'))
        self.assertEqual(recorded.events(), [f"{X} write /w/a) = 5;1"])

    def test_details_of_yy(self):
        recorded = from_log(
            calls(
                'read(0</dev/pts/0<char 136:0>>, "x", 1) = 1',
                'sendto(4<UNIX-STREAM:[7->8,"/run/a>b"]>, "x", 1, 0, NULL, 0) = 1',
                'recvfrom(5<UNIX-STREAM:[8->7]>, "x", 1, 0, NULL, NULL) = 1',
                'sendto(6<TCP:[127.0.0.1:1->[::1]:2]>, "x", 1, 0, NULL, 0) = 1',
                'write(7</w/ends-in->, "x", 1) = 1',
            )
        )
        objects = [b"/dev/pts/0", b"UNIX-STREAM:[7->8];1", b"TCP:[127.0.0.1:1->[::1]:2];1", b"/w/ends-in-"]
        self.assertEqual(recorded.names[2:], objects)

    def test_a_pair_of_sockets_is_one_object(self):
        pair = "socketpair(AF_UNIX, SOCK_STREAM, 0, [3<socket:[7]>, 4<socket:[8]>]) = 0"
        there, back = 'write(3<socket:[7]>, "x", 1) = 1', 'read(4<socket:[8]>, "x", 1) = 1'
        self.assertEqual(from_log(calls(pair, there, back)).names[2:], [b"socket:[7];1"])

    def test_an_execve_goes_on_in_the_first_thread(self):
        recorded = from_log(SUPERSEDED)
        self.assertEqual(recorded.names, [b"/p/x", b"/p/y[10];1", b"/p/y"])
        self.assertEqual(recorded.shown()[-1], "execve 2 1 6")

    def test_a_write_that_was_cut_off_may_have_written(self):
        recorded = from_log(calls('write(1</w/b>, "x", 1 <unfinished ...>', "+++ killed by SIGKILL +++"))
        self.assertEqual(recorded.events(), [f"{X} write /w/b"])
        self.assertEqual(recorded.losses, [])

    def test_a_fork_in_another_numbering(self):
        recorded = from_log(calls("fork() = 2 /* 12 in strace's PID NS */") + '12 6.000000 read(3</w/a>, "", 9) = 9\n')
        self.assertEqual(recorded.events(), ["/w/a read /p/x[12];1"])


class Damaged(unittest.TestCase):
    def refused(self, log, words):
        done, recorded = run(log=log)
        self.assertIsNone(recorded)
        self.assertEqual(done.returncode, 4)
        self.assertEqual(done.stderr.count("\n"), 1)
        self.assertIn(words, done.stderr)

    def test_a_log_without_paths(self):
        self.refused(calls('read(3, "x", 9) = 1', "close(3) = 0"), "strace -y")

    def test_an_empty_log(self):
        self.refused("", "has no line")

    def test_a_missing_log(self):
        self.refused(None, "No such file")

    def test_what_is_no_log(self):
        self.refused("read(3</w/a>) = 1\n10 19:20:45 read(3</w/a>) = 1\n", "has no line")

    def test_years(self):
        self.refused('10 0.000000 read(3</w/a>, "x", 9) = 1\n', "1970 to 2099")
        self.refused('10 4102444800.010000 read(3</w/a>, "x", 9) = 1\n', "1970 to 2099")

    def test_a_log_cut_in_the_middle_of_a_line(self):
        done, recorded = run(log=calls('read(3</w/a>, "x", 9) = 1', 'read(3</w/b>, "x", 9) = 1')[:-9])
        self.assertEqual(done.returncode, 3)
        self.assertIn("in the middle of a line", done.stderr)
        self.assertEqual(recorded.events(), [f"/w/a read {X}"])

    def test_what_cannot_be_read_is_counted(self):
        unclear = [
            'read(3</w/a>, "x',
            'read(3, "x", 9) = 1',
            '<... read resumed>"x", 9) = 1',
            'rename("/w/a"..., "/w/b") = 0',
        ]
        done, recorded = run(log=calls(*unclear, 'read(3</w/a>, "x", 9) = 1') + "no line of strace\n" + FAR)
        self.assertEqual(done.returncode, 3)
        self.assertIn("could not be read: 6", done.stderr)
        self.assertEqual(recorded.events(), [f"/w/a read {X}"])
