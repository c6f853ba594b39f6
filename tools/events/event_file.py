"""Event files of document 01, made record by record."""

import struct

OBJECT, SUBJECT = 0, 1
DECLARATION, READ, WRITE, LOAD, FORK, EXECVE = range(6)

MOST_ENTITIES = 4_096
MOST_EVENTS = 1_000_000
LAST_TIME = 2**32 - 1

HEADER = b"SLT" + struct.pack("<H", 1) + bytes(3)
RECORD = struct.Struct("<BBHHHI")


class Full(Exception):
    """What has no room in an event file."""


class EventFile:
    """The bytes so far. Entities are numbered from 0 as declared."""

    def __init__(self):
        self.content = bytearray(HEADER)
        self.entities = 0
        self.events = 0
        self.last = 0

    def check(self, entities, time):
        """Raises Full if there is no room for so many entities and an event at this time."""
        if self.entities + entities > MOST_ENTITIES:
            raise Full(f"an event file has at most {MOST_ENTITIES:,} entities")
        if self.events == MOST_EVENTS:
            raise Full(f"an event file has at most {MOST_EVENTS:,} events")
        if time > LAST_TIME:
            raise Full(f"an event file has times up to {LAST_TIME:,} hundredths")

    def declare(self, sort):
        """The number of a new entity."""
        number = self.entities
        self.content += RECORD.pack(DECLARATION, sort, number, 0, 0, 0)
        self.entities += 1
        return number

    def add(self, kind, source, target, time):
        """Adds an event at this time, or at the last time if that is later; at 1 at least."""
        self.last = max(self.last, time, 1)
        self.content += RECORD.pack(kind, 0, source, target, 0, self.last)
        self.events += 1

    def save(self, path):
        with open(path, "wb") as out:
            out.write(self.content)
