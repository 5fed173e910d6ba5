"""What this machine has, and processes that end with this one."""

import contextlib
import ctypes
import os
import signal
import subprocess
import sys
import time

# What a check with an edit takes, and a proof by rt ci: at most, except for those of xa_commands
# with an edit, which take up to 4 GB.
BYTES_A_JOB, BYTES_A_PROOF = 3 << 30, 5_000_000_000


def processors():
    return len(os.sched_getaffinity(0))


def free_bytes():
    with open("/proc/meminfo", encoding="utf-8") as it:
        return next(int(line.split()[1]) << 10 for line in it if line.startswith("MemAvailable:"))


class Busy:
    """How many processors were busy since this was asked last."""

    def __init__(self):
        self.last = self.times()

    @staticmethod
    def times():
        """How long the processors were idle so far, and how long in all."""
        ours, idle, all_times = {f"cpu{it}" for it in os.sched_getaffinity(0)}, 0, 0
        with open("/proc/stat", encoding="utf-8") as it:
            for name, *times in filter(None, map(str.split, it)):
                if name in ours:
                    idle += int(times[3]) + int(times[4])
                    all_times += sum(map(int, times[:8]))
        return idle, all_times

    def __call__(self):
        was_idle, was_all = self.last
        self.last = idle, all_times = self.times()
        return processors() * (1 - (idle - was_idle) / max(1, all_times - was_all))


def put_last(leader):
    """Gives all that runs in the session of this leader the lowest priority, and so what it starts
    from now on."""
    nice_all(leader, 19)


def put_back(leader):
    """Gives it the priority of this program, if this program may."""
    nice_all(leader, os.getpriority(os.PRIO_PROCESS, 0))


def nice_all(leader, nice):
    for group in {int(fields[2]) for _, fields in of_session(leader)}:
        with contextlib.suppress(OSError):
            os.setpriority(os.PRIO_PGRP, group, nice)
    nice_as_session(leader, nice)


def nice_as_session(pid, nice):
    """Linux may divide the processors among sessions first: then nice counts only within one."""
    with contextlib.suppress(OSError), open(f"/proc/{pid}/autogroup", "w", encoding="utf-8") as it:
        it.write(str(nice))


def processes():
    """Each process, and what the system tells of it, from its state on."""
    for it in filter(str.isdigit, os.listdir("/proc")):
        with contextlib.suppress(OSError), open(f"/proc/{it}/stat", encoding="utf-8", errors="replace") as stat:
            yield int(it), stat.read().rpartition(")")[2].split()


def of_session(session):
    """Those of a session, which its leader's number names."""
    return ((pid, fields) for pid, fields in processes() if int(fields[3]) == session)


def seconds_of(session):
    """How many processor seconds the processes of a session have taken so far, with those that have
    ended."""
    ticks = sum(sum(map(int, fields[11:15])) for _, fields in of_session(session))
    return ticks / os.sysconf("SC_CLK_TCK")


def jobs_for(bytes_a_job):
    """How many jobs there are processors and memory for, if each takes so much."""
    return max(1, min(processors(), free_bytes() // bytes_a_job))


def on_signals(ends):
    """If a signal is to end this program, does that, and ends it with the status that a shell would
    give."""

    def stop(number, _):
        ends()
        sys.exit(128 + number)

    for it in (signal.SIGHUP, signal.SIGINT, signal.SIGTERM):
        signal.signal(it, stop)


def descendants():
    """All processes that run because this one has started them, or one of them."""
    parents, ended = {}, set()
    for pid, (state, parent, *_) in processes():
        parents[pid] = int(parent)
        if state == "Z":
            ended.add(pid)
    found, last = set(), {os.getpid()}
    while last:
        last = {it for it, parent in parents.items() if parent in last}
        found |= last
    return found - ended


class Running:
    """Processes all of which stop ends, with all that they started: some put those into groups of
    their own."""

    # Of what has lost its parent this process becomes the parent.
    SET_CHILD_SUBREAPER = 36

    def __init__(self):
        self.is_stopped = False
        ctypes.CDLL(None).prctl(self.SET_CHILD_SUBREAPER, 1, 0, 0, 0)

    def start(self, words, **how):
        if self.is_stopped:
            raise InterruptedError
        return subprocess.Popen(words, stdin=subprocess.DEVNULL, start_new_session=True, **how)

    def stop(self):
        """Asks all to end, and then makes them."""
        self.is_stopped = True
        for number in (signal.SIGTERM, *[signal.SIGKILL] * 3):
            for it in descendants():
                with contextlib.suppress(OSError):
                    os.kill(it, number)
            for _ in range(20):
                if not descendants():
                    return
                time.sleep(0.1)
