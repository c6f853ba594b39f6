"""The calls that the recorder knows: when they count, and the ways that data goes in them."""

from event_file import LOAD, READ, WRITE
from strace_names import PLACES, Unreadable
from strace_text import all_shown, shown

READS = "read pread64 readv preadv preadv2 recv recvfrom recvmsg recvmmsg".split()
WRITES = "write pwrite64 writev pwritev pwritev2 send sendto sendmsg sendmmsg".split()
# The places of the source and of the target among the arguments.
COPIES = {
    "copy_file_range": (0, 2),
    "splice": (0, 2),
    "tee": (0, 1),
    "sendfile": (1, 0),
    "sendfile64": (1, 0),
    "ioctl": (2, 0),
}
MAPPINGS = "mmap mmap2".split()
TRANSFERS = READS + WRITES + list(COPIES) + MAPPINGS
FORKS = "fork vfork clone clone3".split()
EXECVES = "execve execveat".split()
OPENS = "open openat openat2 creat".split()
TRUNCATIONS = "truncate truncate64 ftruncate ftruncate64".split()
OTHERS = "fchdir socketpair".split()
KNOWN = frozenset([*TRANSFERS, *FORKS, *EXECVES, *OPENS, *TRUNCATIONS, *PLACES, *OTHERS])
CLONING = (b"FICLONE", b"FICLONERANGE")


def is_done(call):
    """Whether the call succeeded. A write that was cut off may have written."""
    if call.result is None:
        return call.name in WRITES
    if call.name in OPENS:
        return call.result >= 0
    if call.name in TRANSFERS and call.name != "ioctl" or call.name in FORKS:
        return call.result > 0
    return call.result == 0


def effect(call):
    """The place from which the call counts."""
    return call.began if call.name in WRITES or call.name in FORKS else call.ended


def transfers(call):
    """The kind, and what it is read from or written to, of each way that data went."""
    if call.name in MAPPINGS:
        return mapped(call)
    if call.name == "ioctl":
        return cloned(call)
    if call.name in COPIES:
        source, target = COPIES[call.name]
        return [(READ, descriptor(call, source)), (WRITE, descriptor(call, target))]
    return [(READ if call.name in READS else WRITE, descriptor(call, 0))]


def mapped(call):
    how = b"|".join(call.arguments[2:4])
    if b"MAP_ANON" in how or call.arguments[4:5] == [b"-1"]:
        return []
    file, ways = descriptor(call, 4), []
    if b"PROT_EXEC" in how:
        ways.append((LOAD, file))
    elif b"PROT_READ" in how:
        ways.append((READ, file))
    if b"PROT_WRITE" in how and b"MAP_SHARED" in how:
        ways.append((WRITE, file))
    return ways


def cloned(call):
    """Of all ioctls, those by which a file shares the data of another carry some."""
    if len(call.arguments) < 3 or call.arguments[1].split()[-1] not in CLONING:
        return []
    sources = all_shown(call.arguments[2])
    if not sources:
        raise Unreadable
    return [(READ, sources[0][1]), (WRITE, descriptor(call, 0))]


def descriptor(call, place):
    """What the descriptor at this place among the arguments stands for."""
    found = shown(call.arguments[place]) if place < len(call.arguments) else None
    if found is None:
        raise Unreadable
    return found
