"""Reads a log of strace from its beginning to its end, or to what has no room in an event file."""

import os

from conversion import Conversion
from event_file import Full
from moment import LAST_MOMENT, shown_moment
from strace_calls import EXECVES, KNOWN, effect, is_done
from strace_log import Log
from strace_text import all_shown


class Refused(Exception):
    """Why nothing can be recorded."""


class Outcome:
    """A recording and what it lacks, in sentences."""

    def __init__(self, recording):
        self.recording = recording
        self.losses = []


def convert(path, folder, keep_going=False):
    log = Log(KNOWN)
    try:
        with open(path, "rb") as lines:
            calls = list(log.calls(lines))
    except OSError as error:
        raise Refused(f"cannot read {path}: {error.strerror}") from error
    if log.first is None:
        raise Refused(f"{path} has no line as strace -f -ttt -y -o LOG writes them")
    start = log.first.moment - 1
    if not 0 <= start <= LAST_MOMENT:
        raise Refused(f"{path} begins outside the years 1970 to 2099")
    conversion = Conversion(start, first_folder(calls, folder), keep_going)
    outcome = Outcome(conversion.recording)
    start_command(calls, log.first, conversion)
    run(calls, conversion, outcome)
    if conversion.unread and not conversion.has_paths:
        raise Refused("no descriptor in the log has a path: make it with strace -y")
    note_losses(log, conversion, outcome)
    return outcome


def first_folder(calls, folder):
    """The working folder that the log shows before it changes, else the given one."""
    for call in calls:
        if call.name in ("chdir", "fchdir"):
            break
        for part in call.arguments:
            for number, shown in all_shown(part) if b"AT_FDCWD<" in part else ():
                if number == b"AT_FDCWD":
                    return shown.path
    return os.fsencode(folder)


def start_command(calls, first, conversion):
    """A log that begins with an execve begins with the command that strace started."""
    for call in calls:
        if call.began == first and call.name in EXECVES:
            processes = conversion.processes
            processes.start(call.thread, processes.folder, True)
            conversion.is_command = True
            break


def run(calls, conversion, outcome):
    """Takes the calls in the order in which they count."""
    steps = sorted(in_steps(calls), key=lambda step: step[:2])
    try:
        for number, (place, is_taken, call) in enumerate(steps):
            if is_taken:
                conversion.take(call, place)
            else:
                conversion.begin(call)
    except Full as full:
        left_out = sum(is_taken and is_done(call) for _, is_taken, call in steps[number:])
        where = f"line {place.line} of the log, {call.name} by {call.thread}"
        outcome.losses.append(
            f"stopped at {where} at {shown_moment(place.moment)}: {full}; "
            f"{left_out:,} calls from there on are left out. "
            "Record a shorter run; --keep-going goes on without what does not fit"
        )
        return
    try:
        conversion.finish()
    except Full as full:
        outcome.losses.append(
            f"stopped at the end of the log: {full}; further names of linked files are left out"
        )


def in_steps(calls):
    """Where a call's descriptors are looked up, if before it counts, and where it counts."""
    for call in calls:
        place = effect(call)
        if call.began.line < place.line and is_done(call):
            yield call.began, False, call
        yield place, True, call


def note_losses(log, conversion, outcome):
    unread = log.unread + conversion.unread - log.is_cut
    say = outcome.losses.append
    if conversion.dropped:
        say(f"events that did not fit into an event file and are dropped: {conversion.dropped:,}")
    if unread:
        say(f"lines or calls of the log that could not be read: {unread:,}")
    if conversion.unmade:
        say(f"processes without a parent, whose fork the log lacks: {conversion.unmade:,}")
    if log.is_cut:
        say("the log ends in the middle of a line, and what followed is not recorded")
