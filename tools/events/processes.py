"""The processes of a log, each with its program, its folder and its descriptors."""


class Process:
    """A subject. Its threads are the same process."""

    is_subject = True

    def __init__(self, number, folder, made, since):
        self.entity = None
        self.number = number
        self.made = made  # by the recording
        self.started = since
        self.program = b""
        self.folder = folder
        self.descriptors = {}  # number to what it last stood for

    def since(self):
        return self.started


class Processes:
    def __init__(self, folder):
        self.folder = folder
        self.threads = {}
        self.started = 0

    def of(self, thread):
        """The process of a thread; one that is new here stood before the recording."""
        if thread not in self.threads:
            self.start(thread, self.folder, False)
        return self.threads[thread]

    def start(self, thread, folder, made):
        self.started += 1
        self.threads[thread] = Process(thread, folder, made, self.started)
        return self.threads[thread]

    def fork(self, parent, thread):
        child = self.start(thread, parent.folder, True)
        child.program = parent.program
        child.descriptors = dict(parent.descriptors)
        return child
