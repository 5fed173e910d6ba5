"""The coordinator's log: what `xatm log` prints of it, whether it is new, and which one is a worker's."""

from __future__ import annotations

import fcntl
import os
import re
import secrets
import string
import subprocess
import time
from collections.abc import Iterable, Mapping, Sequence
from dataclasses import dataclass, field
from typing import IO

from .errors import LogInUse, SetupError, XaError
from .logger import log
from .xid import Xid

#: What a name that nobody gave has: so many letters and digits, that no two logs have the same by chance.
LETTERS, DRAWN = string.ascii_lowercase + string.digits, 12
#: What a look at a log meets for so many seconds may still pass, and one that takes longer is given up.
MOMENT, LONGEST_LOOK = 2.0, 60
#: A log is written by pages, with some beside it.
LEAST_ROOM = 65536
#: How the lines begin that `xatm log` prints before what is decided.
HEADS = ("name ", "rm ", "incarnation ")
#: What it says if another process has the log. (Its status is told as 0 where the program takes those of
#: all its children itself, as gunicorn does while `post_fork` runs.)
IN_USE = "in use by another process"
#: What it says beside the lines of a log that another program has, or that can't be written; and of one that is none, or another's: no
#: later look goes better then.
COPY, REFUSED = "another process runs over it", "xatm: log: "
#: A line of a decision, with how many branches it waits for, as `xatm log` prints it and as it explains it; and of one of these.
DECIDED = re.compile(r"([0-9a-f]{32}) (?:is decided to commit, and its row (?:names no|waits for))? ?([0-9]*)")
BRANCH = re.compile(r" +([0-9]+:[0-9a-f]+:[0-9a-f]+) at resource manager ")
#: What stands for the number of a worker in the path of a log, and the most workers.
WORKER, MOST_WORKERS = "{worker}", 1024
#: What the system says of its mounts, and kinds of file systems that are no place for a log: of
#: several machines, and those that are gone after a stop.
MOUNTS = "/proc/self/mountinfo"
SHARED = ("nfs", "nfs4", "cifs", "smb3", "fuse.sshfs", "fuse.glusterfs")
SHORT_LIVED = ("overlay", "tmpfs", "ramfs")


class LookKilled(SetupError):
    """Somebody has killed the program that looked at the log: it may be done again."""


@dataclass(frozen=True)
class Names:
    """The names that a log keeps."""

    #: The manager's, which is empty if it has none.
    manager: str = ""
    #: Those of its resource managers, in the order of their numbers. None of them if they have none.
    rms: tuple[str, ...] = ()

    @classmethod
    def drawn(cls, rms: Sequence[str]) -> Names:
        """Those of a new log, whose manager was given no name: one that no other log has."""
        return cls("".join(secrets.choice(LETTERS) for _ in range(DRAWN)), tuple(rms))


@dataclass(frozen=True)
class Log:
    """What a log holds."""

    #: How often a coordinator has started over it: no branch is of a later session.
    incarnation: int = 0
    #: The transactions that are decided to commit, each with the branches that have yet to acknowledge.
    decisions: Mapping[str, Sequence[Xid]] = field(default_factory=dict)
    #: The branches that a database ended by itself, each with how.
    heuristics: Sequence[str] = ()
    #: The names that it keeps. None, if there is no log.
    names: Names | None = None
    #: Whether another program has it now, or it can't be written.
    is_in_use: bool = False
    #: Why it can't be read now.
    fault: str | None = None
    #: Its path. Empty, if there is no log.
    path: str = ""

    @property
    def manager(self) -> str:
        """The name of its manager, if it has one."""
        return "" if self.names is None else self.names.manager

    def lines(self) -> list[str]:
        """The lines of which `xatm log --make` makes such a log."""
        names = self.names or Names()
        lines = [f"name {names.manager}"] if names.manager else []
        lines += [f"rm {number} {rm}" for number, rm in enumerate(names.rms)]
        lines.append(f"incarnation {self.incarnation}")
        lines += [" ".join([gtrid, str(len(xids)), *map(str, xids)]) for gtrid, xids in sorted(self.decisions.items())]
        return [*lines, "end"]

    @classmethod
    def at(cls, program: str, path: str, is_explained: bool = False) -> Log:
        """What is in the log at a path: the heuristic ends, or if it is explained, the branches that decisions wait for. A look changes
        nothing. Raises LogInUse or SetupError."""
        lines, said = _printed(program, path, *(["--explain"] if is_explained else []))
        heads = {name: [line[len(name) :] for line in lines if line.startswith(name)] for name in HEADS}
        if not heads["incarnation "]:
            if not said:
                raise LookKilled(f"{program} was ended while it read the log {path}")
            raise LogInUse(said) if IN_USE in said else SetupError(said)
        names = Names("".join(heads["name "]), tuple(rm.split(" ")[1] for rm in heads["rm "]))
        is_in_use = COPY in said
        # What is decided over a log that is in use comes and goes.
        decisions = {} if is_in_use else _decisions_in(lines, is_explained)
        heuristics = [line for line in lines if ":" in line.split(" ")[0]]
        return cls(int(heads["incarnation "][0]), decisions, heuristics, names, is_in_use, path=path)


def run_log(
    program: str, path: str, *options: str, text: str = "", seconds: float | None = LONGEST_LOOK
) -> subprocess.CompletedProcess[str]:
    """Runs `xatm log` over the log at a path, for so many seconds at most. Raises SetupError if that can't be done."""
    try:
        words = [program, "log", *options, path]
        return subprocess.run(words, input=text, capture_output=True, text=True, check=False, timeout=seconds)
    except OSError as error:
        raise SetupError(f"the program {program} can't be run, which program= may give: {error.strerror}") from error
    except subprocess.TimeoutExpired as error:
        raise SetupError(f"{program} says nothing of the log {path} for {seconds} seconds") from error


def _printed(program: str, path: str, *options: str) -> tuple[list[str], str]:
    """What `xatm log` prints of the log at a path, and what it says beside it."""
    done = run_log(program, path, *options)
    if done.returncode < 0:
        # It may have printed only a part.
        raise LookKilled(f"{program} was ended by the signal {-done.returncode}, while it read the log {path}")
    if done.stdout and not done.stdout.endswith("\n"):
        raise LookKilled(f"{program} was ended while it told a line of the log {path}")
    return done.stdout.splitlines(), done.stderr.strip()


def _decisions_in(lines: Iterable[str], is_explained: bool) -> dict[str, list[Xid]]:
    """The decisions that lines tell, if they are explained with the branches that they wait for."""
    found: dict[str, list[Xid]] = {}
    counts: dict[str, int] = {}
    for line in lines:
        decided, branch = DECIDED.match(line), BRANCH.match(line)
        if decided is not None:
            found[decided.group(1)], counts[decided.group(1)] = [], int(decided.group(2) or 0)
        elif branch is not None:
            xid = Xid.parse(branch.group(1))
            found[xid.transaction].append(xid)
    if is_explained and any(len(found[gtrid]) < count for gtrid, count in counts.items()):
        raise LookKilled("the program was ended while it explained the log")
    return found


def log_at_rest(program: str, path: str, patience: float) -> Log:
    """What the log at a path holds: of a new one, nothing. While another program has it, looks again for so many seconds. Raises
    LogInUse or SetupError."""
    begun = time.monotonic()
    while not is_new_log(path):
        seconds = patience
        try:
            found = Log.at(program, path, is_explained=True)
            if not found.is_in_use:
                return found
            if not _may_be_written(path):
                raise SetupError(f"the log {path} can't be written by this user, or on this file system")
            error: XaError = LogInUse(f"the log {path} is in use by another program")
        except (LogInUse, LookKilled) as raised:
            error = raised
        except SetupError as raised:
            # Whoever has just made it may be looked at too early.
            error, seconds = raised, 0.0 if REFUSED in str(raised) else min(patience, MOMENT)
        if time.monotonic() >= begun + seconds:
            raise error
        time.sleep(0.1)
    return Log()


def see_place(path: str) -> None:
    """Warns of a place for a log at which it isn't safe, as far as the system tells."""
    kind = _kind_of_place(os.path.dirname(os.path.abspath(path)))
    if kind in SHARED:
        log.warning("the log %s lies on %s: nothing sees there whether a program of another machine has it too", path, kind)
    elif kind in SHORT_LIVED:
        lost = "the log %s lies on %s, and is lost with the container or the machine: what is prepared then waits for somebody"
        log.warning(lost, path, kind)


def _kind_of_place(folder: str) -> str | None:
    """The kind of a folder's file system."""
    try:
        device = os.stat(folder).st_dev
        with open(MOUNTS, encoding="utf-8", errors="replace") as it:
            mounts = [line.split() for line in it]
        of = f"{os.major(device)}:{os.minor(device)}"
        return next((words[words.index("-") + 1] for words in mounts if words[2] == of), None)
    except (OSError, ValueError, IndexError):
        return None


def is_disk_full(path: str) -> bool:
    """Whether there is no room for a log at this path any more, as far as the system tells."""
    try:
        found = os.statvfs(os.path.dirname(os.path.abspath(path)))
    except OSError:
        return False
    return found.f_bavail * found.f_frsize < LEAST_ROOM


def _may_be_written(path: str) -> bool:
    """Whether a log, its journal and its folder may be written, as far as the system tells."""
    some = path, f"{path}-wal", os.path.dirname(os.path.abspath(path))
    return all(os.access(one, os.W_OK) for one in some if os.path.exists(one))


def names_for(kept: Log, name: str | None, rms: Sequence[str]) -> Names:
    """The names that a coordinator is started with over a log: those that the log keeps, but for another name that is given, with which the
    log will be refused. A new log gets the given name, or if there is none, one that is drawn."""
    if kept.names is None:
        return Names.drawn(rms) if name is None else Names(name, tuple(rms))
    return Names(kept.names.manager if name is None else name, tuple(rms) if kept.names.rms else ())


def free_log(path: str) -> tuple[str, IO[bytes] | None]:
    """The path of a log for a worker: the first number in place of `{worker}` that no other process has taken. And what is to be kept
    open as long as it is to be this one's."""
    if WORKER not in path:
        return path, None
    for number in range(MOST_WORKERS):
        mine = path.replace(WORKER, str(number))
        it = open(f"{mine}-worker", "ab")
        try:
            fcntl.flock(it, fcntl.LOCK_EX | fcntl.LOCK_NB)
        except BlockingIOError:
            it.close()
            continue
        return mine, it
    raise LogInUse(f"all {MOST_WORKERS} logs {path} are in use by other workers")


def logs_of_workers(path: str) -> list[str]:
    """The paths of the logs that workers have had, in the order of their numbers; or the one path."""
    if WORKER not in path:
        return [path]
    return [mine for mine in (path.replace(WORKER, str(number)) for number in range(MOST_WORKERS)) if os.path.exists(mine)] or [path]


def is_new_log(path: str) -> bool:
    """Whether no coordinator has had the log yet: there is no file, or an empty one."""
    try:
        return os.path.getsize(path) == 0
    except OSError:
        return True
