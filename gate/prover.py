"""Checks of copies of a crate, and what ends them when this program ends, however it ends."""

import collections
import contextlib
import os
import shutil
import signal
import subprocess
import tempfile
import threading

from .answers import names_in, rewrite
from .crates import PARTS, text_of
from .functions import Names
from .places import Copies, told_by_origins
from .reports import reports
from .stubs import Stubs

# What a check printed, its status, its processor seconds and the most memory that it took.
Said = collections.namedtuple("Said", "status text seconds bytes")


class Stopped(Exception):
    """The program is ending."""


class Room:
    """A folder for all that is made, and a group of processes for all that is started: both are gone once this program has ended,
    also where it was killed."""

    GUARD = 'trap : TERM; read _; kill -TERM 0; sleep 0.3; rm -rf "$1"; kill -KILL 0'

    def __init__(self):
        self.folder = tempfile.mkdtemp(prefix="xatm-edits-")
        self.stops, ends, self.held = threading.Event(), *os.pipe()
        words = ["sh", "-c", self.GUARD, "sh", self.folder]
        how = {"stdin": ends, "stdout": subprocess.DEVNULL, "stderr": subprocess.DEVNULL}
        self.guard = subprocess.Popen(words, preexec_fn=os.setpgrp, **how)
        os.close(ends)

    def __enter__(self):
        return self

    def __exit__(self, *_):
        self.stop()
        self.guard.wait()

    def stop(self):
        if not self.stops.is_set():
            self.stops.set()
            os.close(self.held)

    def new(self, name):
        return tempfile.mkdtemp(prefix=f"{name}-", dir=self.folder)

    def run(self, words, folder):
        """Runs a check, and returns what it said."""
        if self.stops.is_set():
            raise Stopped
        with tempfile.TemporaryFile("w+", errors="replace", encoding="utf-8", dir=self.folder) as out:
            how = {"cwd": folder, "stdin": subprocess.DEVNULL, "stdout": out, "stderr": subprocess.STDOUT}
            group = self.guard.pid
            started = subprocess.Popen(words, preexec_fn=lambda: os.setpgid(0, group), **how)
            _, status, used = os.wait4(started.pid, 0)
            started.returncode = os.waitstatus_to_exitcode(status)
            if self.stops.is_set():
                raise Stopped
            out.seek(0)
            return Said(started.returncode, out.read(), used.ru_utime + used.ru_stime, used.ru_maxrss << 10)


class Prover:
    """Checks of one crate, each begun with what a check of the crate as it stands has proved (the seed). If it is known that the crate
    is proved, no such check is made: each begins with what those before it proved of what their edits left alone, and one of functions
    with edits may leave the others out (stubs)."""

    def __init__(self, kit, crate, room, is_known):
        self.kit, self.crate, self.room, self.work, self.is_known = kit, crate, room, room.new(crate.name), is_known
        self.seed, self.files, self.symbols, self.answers = f"{self.work}/seed", {}, [], {}
        self.names = Names(kit, crate) if is_known else None
        self.stubs, self.has_stubs = Stubs(crate, self.names) if is_known else None, is_known
        self.copies = Copies(crate, self.names, self.stubs) if is_known else None
        self.seconds, self.bytes, self.checks = 0.0, 0, 0

    def prove(self, edits, whole):
        """Makes the seed, begun with what is kept in out/. If nothing is kept, the edits' functions and what they call are enough, and
        nothing is if it is known that the crate is proved. Returns why it isn't, if it isn't."""
        is_begun = True
        try:
            linked(self.crate.kept, self.seed)
        except (OSError, shutil.Error):
            # none, or another command writes it just now
            shutil.rmtree(self.seed, ignore_errors=True)
            os.mkdir(self.seed)
            is_begun = False
        if self.is_known:
            return None
        paths = {it.path() for it in edits}
        whole = whole or is_begun or None in paths
        said = self.check([], [] if whole else only(paths), self.seed)
        if said.status:
            return said
        self.symbols = [it.name for it in reports(said.text) if it.is_function]
        self.files = listing(self.seed)
        return None

    def symbol(self, edit):
        """The whole name of the edit's function, or None if that isn't sure."""
        return self.names.symbol(edit.function) if self.is_known else edit.function.symbol(self.symbols)

    def answered(self, file):
        """The goals that have an answer written by hand in a file of them."""
        if file not in self.answers:
            path = f"{self.crate.folder}/{file}"
            self.answers[file] = names_in(text_of(path)) if os.path.isfile(path) else set()
        return self.answers[file]

    def can_copy(self, function):
        """Whether a check can ask of copies of the function too."""
        return self.has_stubs and self.copies.can_be_made(function)

    def over_seed(self, seats, readings, with_stubs=False):
        """A check of the seats' paths, all if there are none, with their edits made, over a copy of the seed, which no check may change.
        Of some files of answers it reads what they become (readings)."""
        flags = only({it.path for it in seats if it.path})
        if self.is_known:
            return self.check(seats, flags, self.seed, readings, with_stubs)
        over = tempfile.mkdtemp(prefix="over-", dir=self.work)
        os.rmdir(over)
        linked(self.seed, over)
        try:
            return self.check(seats, flags, over, readings)
        finally:
            shutil.rmtree(over, ignore_errors=True)
            if listing(self.seed) != self.files and not self.room.stops.is_set():
                raise RuntimeError(f"{self.crate.name}: a check changed what an earlier one left")

    def clean(self):
        shutil.rmtree(self.work, ignore_errors=True)

    def check(self, seats, flags, over, readings=(), with_stubs=False):
        copied = [it for it in seats if it.is_copy()]
        edits = [it.edit for it in seats if not it.is_copy()]
        with tempfile.TemporaryDirectory(prefix="try-", dir=self.work) as folder:
            for part in PARTS:
                if os.path.isdir(f"{self.crate.folder}/{part}"):
                    shutil.copytree(f"{self.crate.folder}/{part}", f"{folder}/{part}")
            if with_stubs:
                self.stubs.make(folder, edits)
            make(edits, folder)
            origins = self.copies.make(folder, copied) if copied else {}
            for file in readings:
                rewrite(f"{folder}/{file}", readings[file])
            words = [f"{self.kit}/bin/rattle", "check", *self.crate.words(self.kit), "--jobs", "1", *flags]
            said = self.room.run([*words, "--incremental", over], folder)
            if said.status == -signal.SIGKILL:
                # most likely for memory
                said = self.room.run([*words, "--incremental", over], folder)
        self.seconds, self.bytes, self.checks = self.seconds + said.seconds, max(self.bytes, said.bytes), self.checks + 1
        return said._replace(text=told_by_origins(said.text, origins))


def make(edits, folder):
    """Makes edits of different lines in the files of a folder."""
    for file in {file for it in edits for file, _ in it.lines}:
        lines = text_of(f"{folder}/{file}").split("\n")
        for it in edits:
            for (where, number), text in it.lines.items():
                if where == file:
                    lines[number] = text
        with open(f"{folder}/{file}", "w", encoding="utf-8") as it:
            it.write("\n".join(lines))


def only(paths):
    return [word for it in sorted(paths) for word in ("--only", it)]


def linked(folder, to):
    """Copies kept work, what was proved by links: a check replaces such a file, and changes none (over_seed looks)."""

    def copy(one, other):
        if one.endswith(".oantt"):
            with contextlib.suppress(OSError):
                return os.link(one, other)
        return shutil.copy2(one, other)

    shutil.copytree(folder, to, copy_function=copy)


def listing(folder):
    """What tells whether a file of the folder was changed, lost or added."""
    files = [f"{at}/{name}" for at, _, names in os.walk(folder) for name in names]
    return {it: (found.st_ino, found.st_size, found.st_mtime_ns) for it in files for found in [os.stat(it)]}
