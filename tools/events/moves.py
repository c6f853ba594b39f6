"""Where that what stands at a path now stood when the recording began."""

from bisect import bisect_left
from collections import defaultdict


class Moves:
    """The changes of names so far, numbered from 1."""

    def __init__(self):
        self.changes = 0
        self.gone = defaultdict(list)  # path to the changes that took something from it
        self.moves = {}  # change to old path, new path, process
        self.moves_at = defaultdict(list)  # path to the moves from it and to it

    def change(self):
        self.changes += 1
        return self.changes

    def took(self, path):
        """Nothing stands at the path any more."""
        self.gone[path].append(self.change())

    def moved(self, old, new, process):
        """What stood at a path, and below it if it is a folder, stands at another one."""
        change = self.change()
        self.moves[change] = old, new, process
        self.moves_at[old].append(change)
        self.moves_at[new].append(change)

    def origin(self, path):
        """The path at the beginning of what stands at this path and was not used before, and
        the process that moved it last; None if nothing can have stood there."""
        mover, until = None, self.changes + 1
        while True:
            change = self.last_move(path, until)
            if self.is_taken(path, change, until):
                return None, None
            if change == 0:
                return path, mover
            old, new, process = self.moves[change]
            if not is_under(path, new):
                return None, None
            path, mover, until = old + path[len(new) :], mover or process, change

    def last_move(self, path, until):
        """The last move before a change of the path or of a folder above it, 0 if none."""
        last = 0
        while path:
            changes = self.moves_at.get(path, ())
            place = bisect_left(changes, until)
            last = max(last, changes[place - 1] if place else 0)
            path = path[: max(path.rfind(b"/"), 0)]
        return last

    def is_taken(self, path, after, before):
        """Whether something was taken from the path between two changes."""
        changes = self.gone.get(path, ())
        place = bisect_left(changes, after + 1)
        return place < len(changes) and changes[place] < before


def is_under(path, folder):
    return path == folder or path.startswith(folder + b"/")
