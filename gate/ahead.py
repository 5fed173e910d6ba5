"""Edits that are tried while rt ci still proves other crates."""

import re
import subprocess
import threading
from collections import deque

from .machine import BYTES_A_JOB, BYTES_A_PROOF, Busy, free_bytes, processors, put_back, put_last

# What rt ci prints of a crate that it has proved in this run, and of one that an earlier run has.
PROVED, KEPT = re.compile(r"rt: (\w+) proved$"), re.compile(r"rt: (\w+) is kept: ")


class Ahead:
    """The last crates rest on one another, and rt ci leaves processors idle while it proves them.
    Meanwhile the edits of the crates before them are tried, at the lowest priority: of those that
    this run proves, and of those that are left though rt ci has kept them. Those of a crate that
    all others wait for are tried beside its proof (first): if that fails, so does the gate.
    tools/edits keeps what is refused, and counts it when it is run over all. Those that are under
    way when rt ci ends go on, no longer at the lowest priority: it waits for them, crate by crate.

    So often, in seconds (looks), it asks whether there is room for one more: busy says how many
    processors were busy since it was last asked, free how many bytes are left."""

    # One is begun if there is room for it and for one proof more; all are ended once less than this
    # is left.
    LEAST = 2_000_000_000

    def __init__(self, tool, running, left, looks=5, busy=None, free=free_bytes, first=()):
        self.tool, self.running, self.left, self.crates, self.runs = tool, running, left, deque(first), {}
        self.looks, self.busy, self.free = looks, busy or Busy(), free
        self.ends = threading.Event()
        self.thread = threading.Thread(target=self.work, daemon=True)
        self.thread.start()

    def hear(self, line):
        line = line.strip()
        proved, kept = PROVED.match(line), KEPT.match(line)
        if proved or kept and kept[1] in self.left:
            self.crates.append((proved or kept)[1])

    def work(self):
        while not self.ends.wait(self.looks):
            self.look()

    def look(self):
        self.runs = {crate: it for crate, it in self.runs.items() if it.poll() is None}
        if self.free() < self.LEAST:
            self.crates.extendleft(reversed(self.runs))
            self.end_runs()
        elif self.crates and self.has_room():
            crate = self.crates.popleft()
            # Those of the first may be under way when rt ci says that it is kept.
            if crate not in self.runs:
                self.begin(crate)

    def has_room(self):
        is_idle = self.busy() < processors() - 0.5
        return is_idle and self.free() > BYTES_A_PROOF + BYTES_A_JOB

    def begin(self, crate):
        words = ["nice", "-n", "19", self.tool, "--proved", "--jobs", "1", crate]
        quiet = {"stdout": subprocess.DEVNULL, "stderr": subprocess.DEVNULL}
        try:
            run = self.runs[crate] = self.running.start(words, **quiet)
        except OSError:
            # All is to end (InterruptedError), or a process can't be made.
            self.ends.set()
            return
        put_last(run.pid)

    def end_runs(self):
        for it in self.runs.values():
            it.terminate()
        for it in self.runs.values():
            it.wait()
        self.runs = {}

    def end(self):
        """Begins no more."""
        self.ends.set()
        self.thread.join()
        for it in self.runs.values():
            put_back(it.pid)
