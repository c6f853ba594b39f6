"""An object of the recording: a file, pipe or socket."""

from collections import namedtuple

# Since when (0: before the recording), and by which process, a file stands at a path.
Standing = namedtuple("Standing", "since process")


class File:
    """An object: a file's contents from one making to the next, a pipe or a socket."""

    is_subject = False

    def __init__(self, made, path, since=0):
        self.entity = None
        self.made = made
        self.name = path, since  # the path for its name, and since when it had it
        self.paths = {}  # path to standing
        self.removed = set()  # paths at which it stood when they were removed
        self.is_empty = made
        self.is_open = False  # it stood before, and was opened
        self.touched = 0  # the line of its last use

    def base(self):
        return self.naming()[0]

    def since(self):
        return self.naming()[1]

    def naming(self):
        if self.made and self.paths:
            path, standing = next(iter(self.paths.items()))
            return path, standing.since
        return self.name
