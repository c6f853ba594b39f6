"""Which object a path stands for as files are made, overwritten, renamed, linked and removed.

An object that stood before the recording is named by the path it had then. One that the
recording made is named by the last path it had, and carried along when it is renamed.
"""

from collections import defaultdict

from file_object import File, Standing
from moves import Moves, is_under

MEMORY = b"/memfd:"


class Files:
    """The files at their paths. `copy(file, process, other)` is told when contents go on
    in another object; `is_regular(path)` says whether the path is that of a regular file,
    as far as is known."""

    def __init__(self, copy, is_regular):
        self.copy, self.is_regular = copy, is_regular
        self.line = 0  # of the log
        self.moves = Moves()
        self.at = {}  # path to file
        self.stood = {}  # path at the beginning to file
        self.removed = defaultdict(list)  # path to files that may be open still
        self.folders = set()

    def use(self, shown, process):
        """The files that a descriptor may stand for, nearly always one."""
        files = self.found(shown, process)
        for file in files:
            file.touched = self.line
        return files

    def found(self, shown, process):
        if shown.deleted:
            return self.find_removed(shown.path, process)
        return [self.find(shown.path)]

    def opened(self, shown):
        """A file that stood before may be used only after its removal."""
        path = shown.path
        if not shown.deleted and path not in self.at and self.origin(path)[0] == path:
            self.stand(path).is_open = True

    def find(self, path):
        if path in self.at:
            return self.at[path]
        start, mover = self.origin(path)
        if start is None:
            return self.make(path, None)
        file = self.stand(start)
        if start == path:
            return self.put(file, path, Standing(0, None))
        moved = self.make(path, mover)
        self.copy(file, mover, moved)
        return moved

    def find_removed(self, path, process):
        """Where several files had the path that is removed, each that can be used by another
        path may be meant; the others go on as the last of them."""
        files = self.removed.get(path)
        if not files and path.startswith(MEMORY):
            return [self.make_removed(path)]
        if not files:
            return [self.at.get(path) or self.stand(path)]
        lost = [file for file in files if not file.paths and len(file.removed) == 1]
        for older in lost[:-1]:
            if older.entity is not None or older.is_open:
                self.copy(older, process, lost[-1])
            files.remove(older)
            older.removed.clear()
        return list(files)

    def is_gone(self, path):
        """Whether nothing can stand at the path unless it was made just now."""
        return path not in self.at and self.origin(path)[0] is None

    def origin(self, path):
        """As Moves.origin; pipes and sockets never stood before."""
        return self.moves.origin(path) if path.startswith(b"/") else (None, None)

    def stand(self, path):
        """The file that stood at the path at the beginning."""
        if path not in self.stood:
            self.stood[path] = File(False, path)
        return self.stood[path]

    def put(self, file, path, standing):
        self.leave(path)
        file.paths[path] = standing
        self.at[path] = file
        while path.startswith(b"/") and path not in self.folders:
            path = path[: path.rindex(b"/")]
            self.folders.add(path)
        return file

    def leave(self, path):
        file = self.at.pop(path, None)
        if file:
            standing = file.paths.pop(path)
            if file.made and not file.paths:
                file.name = path, standing.since

    def take(self, path):
        """Nothing stands at the path any more."""
        self.moves.took(path)
        self.leave(path)

    def make(self, path, process):
        since = self.moves.change()
        return self.put(File(True, path, since), path, Standing(since, process))

    def make_removed(self, path):
        """A file that never had a name, as of memfd_create and O_TMPFILE."""
        file = File(True, path, self.moves.change())
        self.to_removed(file, path)
        return file

    def to_removed(self, file, path):
        if path not in file.removed:
            self.removed[path].append(file)
            file.removed.add(path)

    def create(self, path, process, began):
        """A file made at the path by a call that began at this line."""
        standing = self.at.get(path)
        if standing and standing.touched > began:
            return standing
        if standing:
            self.unlink(path, began)
        return self.make(path, process)

    def overwrite(self, shown, process, began):
        """The files after a call that began at this line has emptied one: a new object,
        unless it is empty and new, or was used during the call, or may be one of several."""
        if shown.deleted:
            files = self.find_removed(shown.path, process)
        else:
            files = [self.at.get(shown.path) or self.make(shown.path, process)]
        if len(files) > 1 or files[0].is_empty or files[0].touched > began:
            return files
        return [self.replace(files[0])]

    def replace(self, file):
        file.name = file.naming()
        made = File(True, *file.name)
        for path, standing in file.paths.items():
            made.paths[path] = Standing(self.moves.change(), standing.process)
            self.at[path] = made
        for path in file.removed:
            files = self.removed[path]
            files[files.index(file)] = made
        made.removed, file.removed, file.paths = file.removed, set(), {}
        return made

    def unlink(self, path, began):
        """A process that has the file open may still use it as deleted. If it was used
        during the call, it may have been made anew, and stays."""
        file = self.at.get(path)
        if file is None:
            start = self.origin(path)[0]
            file = File(True, path, self.moves.change()) if start is None else self.stand(start)
        self.to_removed(file, path)
        if file.touched <= began:
            self.take(path)

    def link(self, old, new, process, began):
        """Within the recording the two paths are one object."""
        file = self.found(old, process)[-1]
        if new in self.at:
            self.unlink(new, began)
        self.put(file, new, Standing(self.moves.change(), process))

    def exchange(self, one, other, process, began):
        aside = b"/\0"
        self.rename(one, aside, process, began)
        self.rename(other, one, process, began)
        self.rename(aside, other, process, began)

    def rename(self, old, new, process, began):
        file, replaced = self.at.get(old), self.at.get(new)
        if old == new or (file and replaced is file):
            return
        is_first_use = file is None
        if is_first_use and (old in self.folders or not self.is_regular(new)):
            self.rename_folder(old, new, process, began)
            return
        file = file or self.find(old)
        if replaced and replaced.touched > began:
            self.copy(replaced, process, file)
        if not self.is_gone(new):
            self.unlink(new, began)
        if is_first_use:
            self.moves.moved(old, new, process)
        self.carry(file, old, new, process, began)

    def rename_folder(self, old, new, process, began):
        """Of the files in it that are not known, Moves keeps where they were."""
        self.moves.moved(old, new, process)
        for path in [path for path in self.at if is_under(path, old)]:
            self.carry(self.at[path], path, new + path[len(old) :], process, began)
        for path in [path for path in self.removed if is_under(path, old)]:
            for file in self.removed.pop(path):
                file.removed.discard(path)
                self.to_removed(file, new + path[len(old) :])
        self.folders.discard(old)
        self.folders.add(new)

    def carry(self, file, old, new, process, began):
        """To a new path: as the same object if the recording made it or it has further
        paths, else as a new one. If it was used during the call, the old path stays too."""
        if file.touched > began:
            self.put(file, new, Standing(self.moves.change(), process))
            return
        is_same = file.made or len(file.paths) > 1
        self.take(old)
        if is_same:
            self.put(file, new, Standing(self.moves.change(), process))
        else:
            self.copy(file, process, self.make(new, process))

    def finish(self):
        """At the end each further path of a file becomes an object of its own."""
        for path, file in list(self.at.items()):
            standing = file.paths[path]
            is_name = path == file.base() if file.made else standing.since == 0
            is_known = not file.made or file.entity is not None
            if is_known and not is_name and standing.process:
                own = File(True, path, standing.since)
                self.copy(file, standing.process, own)

