"""Makes a recording of the calls in a log of strace."""

import os
import stat

from event_file import EXECVE, FORK, READ, WRITE, Full
from files import Files
from processes import Processes
from recording import Recording
from strace_calls import EXECVES, FORKS, OPENS, TRANSFERS, TRUNCATIONS
from strace_calls import descriptor, is_done, transfers
from strace_names import Unreadable, names
from strace_text import all_shown

NO_OBJECT = (b"anon_inode:", b"signalfd:", b"pid:")
NOT_REGULAR = (b"/dev/", b"/proc/", b"/sys/")
SHARED_MEMORY = b"/dev/shm/"


class Conversion:
    """A recording in the making, and who is who in the log."""

    def __init__(self, start, folder, keep_going):
        self.recording = Recording(start)
        self.processes = Processes(folder)
        self.files = Files(self.copy, self.is_regular)
        self.keep_going = keep_going
        self.moment = start
        self.dropped = 0  # events
        self.unread = 0  # calls
        self.is_command = False  # the log is that of a command from its start
        self.cut_forks = []  # without a result, and the process of each
        self.unmade = 0  # threads that no fork made, though one must have
        self.has_paths = False  # strace -y wrote some down
        self.begun = {}  # the line of a call at work to the ways of its data
        self.special = set()  # paths of named pipes
        self.ends = {}  # one end of a pair of sockets to the other

    def begin(self, call):
        """Looks up what a transfer's descriptors stand for, where strace wrote it down."""
        process = self.at(call, call.began)
        try:
            if call.name in TRANSFERS:
                self.begun[call.began.line] = self.looked_up(call, process)
        except Unreadable:
            pass  # and counted where the call is taken

    def take(self, call, place):
        """Takes a call at the place from which it counts."""
        process = self.at(call, place)
        self.note(call, process)
        if call.name in FORKS and call.result is None:
            self.cut_forks.append((call, process))
        if not is_done(call):
            return
        try:
            self.take_done(call, process)
        except Unreadable:
            self.unread += 1

    def finish(self):
        self.files.finish()

    def at(self, call, place):
        self.files.line, self.moment = place
        if call.thread not in self.processes.threads:
            self.meet(call.thread)
        return self.processes.of(call.thread)

    def meet(self, thread):
        """A thread that no fork gave back is the child of the one that was cut off; it stood
        before if there is none, in a log of something that was there before."""
        if len(self.cut_forks) == 1:
            call, process = self.cut_forks.pop()
            self.take_fork(call._replace(result=thread), process)
        elif self.cut_forks or self.is_command:
            self.unmade += 1

    def note(self, call, process):
        """Keeps what the arguments show of the working folder and of descriptors."""
        shown = [pair for part in call.arguments if b"<" in part for pair in all_shown(part)]
        if call.shown:
            self.files.opened(call.shown)
            shown.append((b"%d" % call.result, call.shown))
        for number, meant in shown:
            self.has_paths = True
            if number == b"AT_FDCWD":
                process.folder = meant.path
            else:
                process.descriptors[number] = meant

    def take_done(self, call, process):
        if call.name in FORKS:
            self.take_fork(call, process)
        elif call.name in EXECVES:
            self.take_execve(call, process)
        elif call.name in OPENS:
            self.take_open(call, process)
        elif call.name in TRUNCATIONS:
            self.take_truncation(call, process)
        elif call.name in TRANSFERS:
            self.take_transfer(call, process)
        elif call.name == "fchdir":
            process.folder = descriptor(call, 0).path
        elif call.name == "socketpair":
            self.take_pair(call)
        else:
            self.take_naming(call, process)

    def take_fork(self, call, process):
        if any(b"CLONE_THREAD" in part for part in call.arguments):
            self.processes.threads[call.result] = process
        else:
            self.add(FORK, process, self.processes.fork(process, call.result))

    def take_execve(self, call, process):
        program = names(call, process)[0]
        for file in self.objects(program, process):
            self.add(EXECVE, file, process)
        process.program = program.path

    def take_transfer(self, call, process):
        ways = self.begun.pop(call.began.line, None)
        if ways is None:
            ways = self.looked_up(call, process)
        for kind, file in ways:
            if kind == WRITE:
                self.add(kind, process, file)
            else:
                self.add(kind, file, process)

    def looked_up(self, call, process):
        return [
            (kind, file)
            for kind, shown in transfers(call)
            for file in self.objects(shown, process)
        ]

    def take_open(self, call, process):
        how = b" ".join(call.arguments[1 if call.name in ("open", "creat") else 2 :])
        is_emptied = b"O_TRUNC" in how or call.name == "creat"
        if not is_emptied and b"O_CREAT" not in how and b"O_TMPFILE" not in how:
            return
        if call.shown is None:
            raise Unreadable
        path = call.shown.path
        if not self.is_regular(path):
            return
        if b"O_TMPFILE" in how:
            self.files.make_removed(path)
        elif is_emptied:
            self.made(self.files.overwrite(call.shown, process, call.began.line), process)
        elif b"O_EXCL" in how:
            self.made([self.files.create(path, process, call.began.line)], process)
        elif self.files.is_gone(path):
            self.made([self.files.make(path, process)], process)

    def take_truncation(self, call, process):
        is_path = call.name.startswith("t")
        shown = names(call, process)[0] if is_path else descriptor(call, 0)
        if call.arguments[1:2] == [b"0"] and self.is_regular(shown.path):
            self.made(self.files.overwrite(shown, process, call.began.line), process)

    def made(self, files, process):
        """To make a file, or make it empty, is a write that leaves it empty."""
        for file in files:
            was_empty = file.is_empty
            self.add(WRITE, process, file)
            file.is_empty = was_empty

    def take_pair(self, call):
        ends = [shown.path for _, shown in all_shown(call.arguments[-1])]
        if len(ends) == 2:
            self.ends[ends[1]] = ends[0]

    def take_naming(self, call, process):
        meant = names(call, process)
        first, began = meant[0], call.began.line
        if call.name == "chdir":
            process.folder = first.path
        elif call.name.startswith("rename"):
            is_exchange = any(b"RENAME_EXCHANGE" in part for part in call.arguments[4:])
            change = self.files.exchange if is_exchange else self.files.rename
            change(first.path, meant[1].path, process, began)
        elif call.name.startswith("link"):
            self.files.link(first, meant[1].path, process, began)
        elif call.name.startswith("mkdir"):
            self.files.folders.add(first.path)
        elif call.name.startswith(("mknod", "symlink")):
            self.files.create(first.path, process, began)
            if any(b"S_IFIFO" in part for part in call.arguments[-3:]):
                self.special.add(first.path)
        else:
            self.files.unlink(first.path, began)

    def is_regular(self, path):
        """Whether a path is that of a regular file, which can be emptied. What stands there
        after the run decides, if the log does not."""
        if not path.startswith(b"/") or path in self.special:
            return False
        if path.startswith(NOT_REGULAR) and not path.startswith(SHARED_MEMORY):
            return False
        try:
            return stat.S_ISREG(os.lstat(path).st_mode)
        except (OSError, ValueError):
            return True

    def objects(self, shown, process):
        """The file, pipe or socket, or the files that may be meant; none for what is no object."""
        if shown.path == b"/dev/null" or shown.path.startswith(NO_OBJECT):
            return []
        if shown.path in self.ends:
            shown = shown._replace(path=self.ends[shown.path])
        return self.files.use(shown, process)

    def copy(self, file, process, other):
        """Contents go on in another object by the hand of a process."""
        self.add(READ, file, process)
        self.add(WRITE, process, other)

    def add(self, kind, source, target):
        try:
            self.recording.add(kind, source, target, self.moment)
        except Full:
            if not self.keep_going:
                raise
            self.dropped += 1
