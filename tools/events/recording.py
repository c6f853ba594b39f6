"""A recording in the making: the event file, the names of its entities and its start."""

import contextlib
import os

from event_file import OBJECT, SUBJECT, WRITE, EventFile
from moment import shown_moment


class Recording:
    """Entities are processes and files; each is declared with its first event."""

    def __init__(self, start):
        self.start = start  # the moment of time 0
        self.file = EventFile()
        self.entities = []

    def add(self, kind, source, target, moment):
        """Adds an event. Raises Full, with nothing of the event added, if it does not fit."""
        time = moment - self.start
        new = [entity for entity in (source, target) if entity.entity is None]
        self.file.check(len(new), time)
        for entity in new:
            entity.entity = self.file.declare(SUBJECT if entity.is_subject else OBJECT)
            self.entities.append(entity)
        self.file.add(kind, source.entity, target.entity, time)
        if kind == WRITE:
            target.is_empty = False

    def names(self):
        """A line for each entity: its base, and after it `;K` if it is the K-th of that base
        that the recording made."""
        lines = [None] * len(self.entities)
        made, stood = [], set()
        for number, entity in enumerate(self.entities):
            name = base(entity)
            if entity.made or name in stood:
                made.append((entity.since(), number, name))
            else:
                stood.add(name)
                lines[number] = name
        counts = {}
        for _, number, name in sorted(made):
            counts[name] = counts.get(name, 0) + 1
            lines[number] = b"%s;%d" % (name, counts[name])
        return b"".join(line + b"\n" for line in lines)

    def save(self, out):
        start = shown_moment(self.start).encode() + b"\n"
        write_all(dict(zip(paths(out), [self.names(), start, self.file.content])))


def paths(out):
    """Names, start and event file. That comes last: who finds it finds the others."""
    stem = out.removesuffix(".slt")
    return [stem + ".names", stem + ".start", out]


def write_all(contents):
    """Writes files, the last one there only when the others are; none if one cannot be."""
    parts = {path: f"{path}.{os.getpid()}.part" for path in contents}
    *_, last = contents
    written = []
    try:
        for path, part in parts.items():
            written.append(part)
            write_synced(part, contents[path])
        remove(last)  # of an earlier recording
        for path, part in parts.items():
            os.rename(part, path)
            written.append(path)
    except BaseException:
        for path in reversed(written):
            remove(path)
        raise


def write_synced(path, content):
    with open(path, "wb") as file:
        file.write(content)
        file.flush()
        os.fsync(file.fileno())


def remove(path):
    with contextlib.suppress(FileNotFoundError):
        os.unlink(path)


def base(entity):
    if entity.is_subject:
        return b"%s[%d]" % (escaped(entity.program), entity.number)
    return escaped(entity.base())


def escaped(name):
    return name.replace(b"\\", b"\\\\").replace(b"\n", b"\\n").replace(b";", b"\\;")

