#!/usr/bin/env python3
"""The processes of this machine, and how one is ended with all that it has begun.
Run: tools/processes.py SESSION, which ends the processes of a session, and waits until they have ended.
"""

import os
import signal
import sys
import time
from contextlib import suppress
from pathlib import Path
from typing import NamedTuple

sys.dont_write_bytecode = True
from helping import tell_help

GRACE = 10  # seconds that a process has to end in
PAUSE = 0.02  # seconds between two looks at those that are left


class Process(NamedTuple):
    """A process that has not ended. Its number and its start tell it from all others."""

    number: int
    start: int
    parent: int
    session: int


def all_processes():
    for path in Path("/proc").glob("[0-9]*/stat"):
        with suppress(OSError):  # (it may have ended)
            fields = path.read_text(errors="replace").rpartition(")")[2].split()
            if fields[0] not in "ZX":
                yield Process(int(path.parent.name), int(fields[19]), int(fields[1]), int(fields[3]))


def below(above):
    """The number of a process, and of all that it has begun, by way of others too, as far as these go on. The
    system lists those that each thread has begun, which takes far less than a look at all processes."""
    found = [above]
    for number in found:
        for path in Path(f"/proc/{number}/task").glob("*/children"):
            with suppress(OSError):  # (it may have ended)
                found += map(int, path.read_text().split())
    return found


def with_begun(numbers, among):
    """These numbers, and those of all that these processes have begun."""
    children = {}
    for it in among:
        children.setdefault(it.parent, []).append(it.number)
    found = list(numbers)
    for number in found:
        found += [child for child in children.get(number, []) if child not in found]
    return found


def left_of(sessions, known):
    """The known processes, those of the sessions, and all below these, as far as they go on, each as its
    number and its start."""
    among = list(all_processes())
    first = [it.number for it in among if it.session in sessions or (it.number, it.start) in known]
    found = set(with_begun(first, among))
    return {(it.number, it.start) for it in among if it.number in found}


def end_sessions(sessions):
    """Ends the processes of these sessions, with all below them, and returns when they have ended. What
    goes on for too long is killed."""
    known, until = set(), time.monotonic() + GRACE
    while left := left_of(sessions, known):
        if time.monotonic() < until:
            send(signal.SIGTERM, left - known)
        else:
            send(signal.SIGKILL, left)
        known = left
        time.sleep(PAUSE)


def send(signal_number, processes):
    for number, _ in processes:
        with suppress(ProcessLookupError):
            os.kill(number, signal_number)


if __name__ == "__main__":
    tell_help(__doc__)
    end_sessions([int(sys.argv[1])])
