"""The parts of a line of strace: arguments, names in quotes, what descriptors stand for."""

import functools
import re
from collections import namedtuple

QUOTED = rb'"(?:[^"\\]|\\.)*"'
# What -y writes after a descriptor: a pipe or socket with its details, or a path, which
# has its `<` and `>` escaped and may be followed by a device's numbers.
WITH_DETAILS = rb"[\w-]+:\[(?:->|" + QUOTED + rb'|[^<>"\\]|\\.)*\]'
PATH = rb"(?:[^<>\\]|\\.)+"
SHOWN = rb"<(" + WITH_DETAILS + rb"|" + PATH + rb")(?:<[^<>]*>)?>(\(deleted\))?"
DESCRIPTOR = rb"\b(\d+|AT_FDCWD)" + SHOWN

DESCRIPTORS = re.compile(DESCRIPTOR, re.S)
PARTS = re.compile(rb"(?P<skip>" + QUOTED + rb"|" + DESCRIPTOR + rb")|(?P<mark>[(){}\[\],])", re.S)
WHOLE_STRING = re.compile(rb'"((?:[^"\\]|\\.)*)"', re.S)
ESCAPE = re.compile(rb"\\(x[0-9a-fA-F]{2}|[0-7]{1,3}|.)", re.S)
CONNECTED = re.compile(rb"([\w-]+):\[([^,]*)->([^,]*)(?:,.*)?\]", re.S)
LETTERS = {b"n": b"\n", b"t": b"\t", b"r": b"\r", b"v": b"\v", b"f": b"\f"}

# What a descriptor stands for: a path, pipe or socket, and whether its name is removed.
Shown = namedtuple("Shown", "path deleted")


def unescaped(text):
    """The bytes that strace wrote with escapes."""
    if b"\\" not in text:
        return text

    def byte(found):
        code = found.group(1)
        if code[:1] == b"x" and len(code) == 3:
            return bytes([int(code[1:], 16)])
        if code[:1] in b"01234567":
            return bytes([int(code, 8) & 255])
        return LETTERS.get(code, code)

    return ESCAPE.sub(byte, text)


@functools.lru_cache(maxsize=10_000)
def shown(text):
    """What the descriptor at the beginning of the text stands for, None if strace does not say."""
    found = DESCRIPTORS.match(text)
    return found and as_shown(found)


@functools.lru_cache(maxsize=10_000)
def all_shown(text):
    """What each descriptor in the text stands for, with its number."""
    marks = (found for found in PARTS.finditer(text) if found.group("skip"))
    return [(found.group(2), as_shown(found, 1)) for found in marks if found.group(2)]


def as_shown(found, before=0):
    path, deleted = found.group(2 + before), found.group(3 + before)
    ends = CONNECTED.fullmatch(path)
    if ends:
        first, second = sorted(ends.groups()[1:])
        path = b"%s:[%s->%s]" % (ends.group(1), first, second)
    return Shown(unescaped(path), bool(deleted))


def name(argument):
    """The name that is the whole argument; None if it is no string, or one cut short."""
    found = WHOLE_STRING.fullmatch(argument)
    return found and unescaped(found.group(1))


def arguments(text):
    """The arguments of a call and what follows its closing bracket; None if that is missing.
    The text begins after the opening bracket."""
    parts, depth, start = [], 0, 0
    for found in PARTS.finditer(text):
        mark = found.group("mark")
        if mark is None:
            continue
        if mark in b"([{":
            depth += 1
        elif mark == b"," and depth == 0:
            parts.append(text[start : found.start()].strip())
            start = found.end()
        elif mark in b")]}":
            depth -= 1
            if depth < 0:
                parts.append(text[start : found.start()].strip())
                return parts, text[found.end() :]
    return None
