"""The paths that the names among a call's arguments mean."""

import functools
import os
import re

from strace_text import Shown, name, shown

# For each call: which arguments are the folder (None: the working folder) and the name.
PLACES = {
    "execve": [(None, 0)],
    "execveat": [(0, 1)],
    "chdir": [(None, 0)],
    "truncate": [(None, 0)],
    "truncate64": [(None, 0)],
    "rename": [(None, 0), (None, 1)],
    "renameat": [(0, 1), (2, 3)],
    "renameat2": [(0, 1), (2, 3)],
    "link": [(None, 0), (None, 1)],
    "linkat": [(0, 1), (2, 3)],
    "unlink": [(None, 0)],
    "unlinkat": [(0, 1)],
    "mkdir": [(None, 0)],
    "mkdirat": [(0, 1)],
    "symlink": [(None, 1)],
    "symlinkat": [(1, 2)],
    "mknod": [(None, 0)],
    "mknodat": [(0, 1)],
}
FOLLOWED = ("execve", "execveat", "chdir", "truncate", "truncate64")
OWN_DESCRIPTOR = re.compile(rb"/(?:proc/(?:self|thread-self)/fd|dev/fd)/(\d+)")
OWN_PROGRAM = re.compile(rb"/proc/(?:self|thread-self)/exe")
real = functools.lru_cache(maxsize=100_000)(os.path.realpath)


class Unreadable(Exception):
    """A call that strace did not write down whole."""


def names(call, process):
    """What each name of the call stands for."""
    places = PLACES[call.name]
    if len(call.arguments) <= max(place[1] for place in places):
        raise Unreadable
    is_followed = call.name in FOLLOWED
    return [meant(call.arguments, *place, process, is_followed) for place in places]


def meant(arguments, folder_place, name_place, process, is_followed):
    written = name(arguments[name_place])
    if written is None or b"\0" in written:
        raise Unreadable
    folder = None if folder_place is None else shown(arguments[folder_place])
    if not written:
        return folder or Shown(process.folder, False)
    path = os.path.join(folder.path if folder else process.folder, written)
    descriptor = OWN_DESCRIPTOR.fullmatch(path)
    if descriptor and descriptor.group(1) in process.descriptors:
        return process.descriptors[descriptor.group(1)]
    if OWN_PROGRAM.fullmatch(path) and process.program:
        return Shown(process.program, False)
    return Shown(resolved(path, is_followed), False)


def resolved(path, is_followed):
    """The path without symbolic links, the last part as it is unless it is followed."""
    if path.startswith(b"/proc/"):
        return os.path.normpath(path)
    head, last = os.path.split(path.rstrip(b"/"))
    if is_followed or last in (b"", b".", b".."):
        return real(path)
    return os.path.join(real(head), last)
