"""A log that is made anew from its mirror, where the machine that had it is lost."""

from __future__ import annotations

import os
import re
from collections.abc import Iterator, Mapping
from contextlib import closing

from .configuration import Configuration
from .errors import SetupError
from .logs import WORKER, Log, run_log
from .mirror import Tables, managers_in


def fail_over(configuration: Configuration, only: str | None = None) -> Iterator[tuple[str, str, int]]:
    """Makes the log of each manager of a configuration that isn't here and that the mirror knows, or of the one of this name. For each
    its path, the manager's name, and how many decisions to commit it has. Raises SetupError if there is none to be made."""
    mirror = configuration.mirror
    if mirror is None:
        raise SetupError("the file names no mirror: it needs a table [mirror]")
    wanted = _wanted(configuration.log, managers_in(mirror, configuration.patience), only)
    if not wanted:
        raise SetupError(f"there is no log to be made at {configuration.log}: the mirror knows none of such a name that isn't here")
    for here, name in wanted.items():
        with closing(Tables(mirror, name, configuration.patience)) as tables:
            found = tables.take_over()
        make_log(configuration.program, here, found)
        yield here, name, len(found.decisions)


def _wanted(pattern: str, managers: Mapping[str, str], only: str | None) -> dict[str, str]:
    """The logs that are to be made here, each with its manager, of those that a mirror knows with the paths of their logs. Raises
    SetupError if a log may be that of several: one of them may be at work elsewhere."""
    wanted: dict[str, str] = {}
    for name, path in managers.items():
        here = _path_here(pattern, path)
        if here is None or only is not None and name != only or os.path.exists(here):
            continue
        if here in wanted:
            both = f"{wanted[here]} and {name}"
            raise SetupError(f"the mirror knows several managers whose log is {os.path.basename(here)}, as {both}: give --name")
        wanted[here] = name
    return wanted


def _path_here(pattern: str, path: str) -> str | None:
    """Where the log is to be that lay at a path, if it is one of this pattern."""
    folder, name = os.path.split(os.path.abspath(pattern))
    parts = [re.escape(part) for part in name.split(WORKER)]
    there = os.path.basename(path)
    return os.path.join(folder, there) if re.fullmatch("[0-9]+".join(parts), there) else None


def make_log(program: str, path: str, found: Log) -> None:
    """Makes a log of what a mirror holds."""
    done = run_log(program, path, "--make", text="".join(f"{line}\n" for line in found.lines()), seconds=None)
    if done.returncode != 0:
        raise SetupError(f"the log {path} can't be made: {done.stderr.strip() or f'status {done.returncode}'}")
