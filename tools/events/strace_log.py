"""The calls in a log of `strace -f -ttt -y -o LOG`."""

import re
from collections import namedtuple

from moment import LAST_MOMENT
from strace_text import arguments, shown

LINE = re.compile(rb"(\d+)(?:<[^>]*>)?\s+(\d+)\.(\d\d)\d* (.*)\n?", re.S)
UNFINISHED = b"<unfinished ...>"
RESUMED = re.compile(rb"<\.\.\. (\w+) resumed>(.*)", re.S)
CALL = re.compile(rb"(\w+)\((.*)", re.S)
RESULT = re.compile(rb"\s*= (\?|0x[0-9a-f]+|-?\d+)", re.S)
IN_OUTER_NUMBERS = re.compile(rb"/\* (\d+) in strace's PID NS \*/")
ENDED = re.compile(rb"\+\+\+ (?:exited|killed|superseded by execve in pid (\d+))")
SIGNAL_OR_OTHER = (b"---", b"+++", b"<detached", b"????")

# A place in the log: a line, from 1, and its moment in hundredths since 1970.
Place = namedtuple("Place", "line moment")
# A call by a thread. Its result is None if the log has none: it was cut off, and may
# have done its work. `shown` is what a descriptor given back stands for.
Call = namedtuple("Call", "thread name arguments result shown began ended")


class Log:
    """Reads the calls of known names, and keeps what was noticed on the way."""

    def __init__(self, known):
        self.known = known
        self.first = None  # the place of the first line
        self.unread = 0  # lines, or calls without their beginning, that could not be read
        self.is_cut = False  # the last line has no end
        self.unfinished = {}  # thread to place and text

    def calls(self, lines):
        """The calls, as their results come."""
        for number, line in enumerate(lines, 1):
            stamped = LINE.fullmatch(line)
            self.is_cut = not line.endswith(b"\n")
            if self.is_cut or not stamped:
                self.unread += 1
                continue
            thread, seconds, hundredths, text = stamped.groups()
            place = Place(number, int(seconds) * 100 + int(hundredths))
            if self.first is None:
                self.first = place
            if place.moment > LAST_MOMENT:
                self.unread += 1
                continue
            yield from self.take(int(thread), text.rstrip(b"\n"), place)
        for thread in list(self.unfinished):
            yield from self.cut_off(thread, place)

    def take(self, thread, text, place):
        if text.startswith(SIGNAL_OR_OTHER):
            yield from self.take_end(thread, text, place)
            return
        began = place
        resumed = RESUMED.match(text)
        if resumed:
            if thread not in self.unfinished:
                self.unread += resumed.group(1).decode() in self.known
                return
            began, start = self.unfinished.pop(thread)
            text = start + resumed.group(2)
        elif thread in self.unfinished:
            yield from self.cut_off(thread, place)
        if text.endswith(UNFINISHED):
            self.unfinished[thread] = began, text.removesuffix(UNFINISHED)
        else:
            yield from self.call(thread, text, began, place)

    def take_end(self, thread, text, place):
        """A thread's end cuts its call off. An execve goes on in the first thread."""
        ended = ENDED.match(text)
        if not ended:
            return
        if ended.group(1):
            other = self.unfinished.pop(int(ended.group(1)), None)
            self.unfinished.pop(thread, None)
            if other:
                self.unfinished[thread] = other
        elif thread in self.unfinished:
            yield from self.cut_off(thread, place)

    def cut_off(self, thread, place):
        began, text = self.unfinished.pop(thread)
        yield from self.call(thread, text + b") = ?", began, place)

    def call(self, thread, text, began, ended):
        found = CALL.match(text)
        name = found.group(1).decode() if found else None
        if found and name not in self.known:
            return
        parts = found and arguments(found.group(2))
        result = parts and RESULT.match(parts[1])
        if not result:
            self.unread += 1
            return
        value, rest = result.group(1), parts[1][result.start(1) :]
        outer = IN_OUTER_NUMBERS.search(rest)
        number = None if value == b"?" else as_number((outer or result).group(1))
        if number is None and b"ERESTART" in rest:
            return
        yield Call(thread, name, parts[0], number, shown(rest), began, ended)


def as_number(text):
    return int(text, 16 if text.startswith(b"0x") else 10)
