"""Recordings of small written logs, and what must hold of every recording."""

import pathlib
import struct
import subprocess
import tempfile

from log_conversion import convert
from moment import shown_moment

TOOLS = pathlib.Path(__file__).resolve().parent.parent
KINDS = "declare read write load fork execve".split()
# The sort of the source and of the target of each kind.
SORTS = {1: (0, 1), 2: (1, 0), 3: (0, 1), 4: (1, 1), 5: (0, 1)}

STARTED = 'execve("/p/x", [...], 0x1) = 0'
X = "/p/x[10];1"


class Recorded:
    """A recording and what was said of its losses."""

    def __init__(self, content, names, start, losses=()):
        self.content, self.start, self.losses = content, start, list(losses)
        self.records = list(struct.iter_unpack("<BBHHHI", content[8:]))
        self.names = names.split(b"\n")[:-1]
        check(self, names)

    def shown(self):
        """The records, a line each."""
        return [self.line(record) for record in self.records]

    def line(self, record):
        kind, sort, first, second, _, time = record
        if kind == 0:
            return f"declare {('object', 'subject')[sort]} {first}"
        return f"{KINDS[kind]} {first} {second} {time}"

    def events(self, under=b"/w/"):
        """The events with objects below a folder, in names, repeats in a row once."""
        lines = []
        for kind, _, source, target, _, _ in self.records:
            ends = self.names[source], self.names[target]
            line = b"%s %s %s" % (ends[0], KINDS[kind].encode(), ends[1])
            if kind and any(end.startswith(under) for end in ends) and line not in lines[-1:]:
                lines.append(line)
        return [line.decode(errors="backslashreplace") for line in lines]


def check(recorded, names):
    """What document 01 asks of an event file, and one line for each entity, all different."""
    assert recorded.content[:8] == b"SLT\x01\0\0\0\0"
    assert len(recorded.content) % 12 == 8
    sorts, last = [], 1
    for kind, sort, first, second, zero, time in recorded.records:
        assert zero == 0
        if kind == 0:
            assert (first, second, time) == (len(sorts), 0, 0) and sort in (0, 1)
            sorts.append(sort)
        else:
            assert sort == 0 and first != second and time >= last
            assert (sorts[first], sorts[second]) == SORTS[kind]
            last = time
    assert len(sorts) <= 4096
    assert names.count(b"\n") == len(sorts) == len(set(recorded.names))
    assert names[-1:] in (b"", b"\n") and b"" not in recorded.names


def behind(recorded):
    """For each entity, by name, the names of those with a causal path to it."""
    found = {name: set() for name in recorded.names}
    for kind, _, source, target, _, _ in recorded.records:
        if kind:
            source, target = recorded.names[source], recorded.names[target]
            found[target] |= found[source] | {source}
    return found


def from_log(log, **options):
    """The recording of a log's text, made in this process."""
    with tempfile.NamedTemporaryFile() as file:
        file.write(log if isinstance(log, bytes) else log.encode())
        file.flush()
        outcome = convert(file.name, "/w", **options)
    made = outcome.recording
    return Recorded(bytes(made.file.content), made.names(), shown_moment(made.start), outcome.losses)


def calls(*texts):
    """A log of calls by the command X, a hundredth apart."""
    return "".join(f"10 5.{at:02}0000 {text}\n" for at, text in enumerate((STARTED, *texts)))


def run(*arguments, log=None):
    """Runs from-strace on a log's text. Gives what it did and, if any was made, the recording."""
    with tempfile.TemporaryDirectory() as scratch:
        base = pathlib.Path(scratch, "out")
        path = pathlib.Path(scratch, "log")
        if log is not None:
            path.write_bytes(log if isinstance(log, bytes) else log.encode())
        command = [TOOLS / "from-strace", *arguments, "--log", path, f"{base}.slt"]
        done = subprocess.run(command, capture_output=True, text=True)
        files = [base.with_suffix(ending) for ending in (".slt", ".names", ".start")]
        if not files[0].exists():
            return done, None
        content, names, start = (file.read_bytes() for file in files)
        return done, Recorded(content, names, start.decode())
