"""Which databases a log belongs to, and how far it has come. Each database calls itself by something that no other one has, and the file
PATH-databases beside the log keeps that from its first use: another database in its place would be asked about branches that it never
had, and would answer that there are none. The drivers in Java and C read and write the same file."""

from __future__ import annotations

import json
import os
import re
import threading
from typing import Any

from .adapters.base import Connection, Database
from .errors import SetupError
from .logger import log

#: What is added to the log's own path, and the version of what is in the file.
SUFFIX, VERSION = "-databases", 1


def _see_kinds(found: dict[str, Any]) -> None:
    """Sees that all is there, and of its kind: it would be found later otherwise. Raises KeyError, TypeError or ValueError."""
    numbers = [found.get("incarnation", 0), *(entry["number"] for entry in found["databases"])]
    texts = [found["manager"], *(entry[key] for entry in found["databases"] for key in ("at", "identity"))]
    texts += [found["shut"]] if found.get("shut") is not None else []
    wrong = [one for one in numbers if type(one) is not int or one < 0] + [one for one in texts if not isinstance(one, str)]
    if wrong:
        raise ValueError(f"{wrong[0]!r} is of another kind than what stood there")


class Identities:
    """What the databases of a log call themselves, by their numbers. Any thread may ask."""

    def __init__(self, path: str, manager: str, is_new: bool):
        """Those of the log at a path, of the manager of this name. A new log belongs to no database yet."""
        self.path = path + SUFFIX
        self._manager = manager
        self._lock = threading.Lock()
        self._known: dict[int, dict[str, str]] = {}
        # The number of the last session.
        self._incarnation = 0
        self._shut: str | None = None
        found = self._read()
        #: Whether what stands beside the log is of this one.
        self.are_kept = found is not None and not is_new and found["manager"] == manager
        if found is None:
            if not is_new:
                log.warning("%s is missing, and is made anew: nobody knows whether the databases are those that the log had", self.path)
        elif not self.are_kept:
            gone = found["manager"] or "a manager without a name"
            same = "it is to be put back if anything is prepared" if found["manager"] == manager else "what it had prepared is left alone"
            log.warning("the log of %s is gone from %s: %s (`python -m garterfossil status`)", gone, path, same)
        else:
            self._known = {entry["number"]: {"at": entry["at"], "identity": entry["identity"]} for entry in found["databases"]}
            self._incarnation, self._shut = found.get("incarnation", 0), found.get("shut")

    def _read(self) -> dict[str, Any] | None:
        try:
            with open(self.path, encoding="utf-8") as it:
                # (Where somebody has removed the last line a comma is left.)
                found: dict[str, Any] = json.loads(re.sub(r",\s*}\s*$", "}", it.read()))
            if found["version"] != VERSION:
                raise SetupError(f"{self.path} is of another version of the driver")
            _see_kinds(found)
            return found
        except FileNotFoundError:
            return None
        except (OSError, ValueError, KeyError, TypeError, RecursionError) as error:
            raise SetupError(
                f"{self.path} can't be read ({error}): it says which databases the log belongs to. If they are surely the same, remove it"
            ) from error

    # ** what the databases are

    def see(self, number: int, label: str, database: Database, connection: Connection, keep: bool = True) -> None:
        """Sees that the database of a number is the one that it was, and keeps what it calls itself, if this is its first use. Raises
        SetupError if it is another one: nothing was asked of it but what it is."""
        with self._lock:
            before = self._known.get(number)
        found = connection.identity(None if before is None else before["identity"])
        if found is None:
            return
        if before is not None:
            if before["identity"] != found:
                raise SetupError(self._other(number, label, database, before, found))
            return
        if keep:
            with self._lock:
                self._known[number] = {"at": repr(database), "identity": found}
                self._write()

    def _other(self, number: int, label: str, database: Database, before: dict[str, str], found: str) -> str:
        with self._lock:
            places = [place for place, entry in self._known.items() if entry["identity"] == found and place != number]
        swapped = f" That one is database {places[0]} of this log: the databases have changed places." if places else ""
        return (
            f"{label} isn't the database that the log {self.path[: -len(SUFFIX)]} belongs to: {database!r} is {found}, and it was"
            f" {before['identity']}, reached as {before['at']}.{swapped} Nothing was asked of it. Put the right one back; if its data were"
            f" moved, and nothing is in doubt, remove {self.path}"
        )

    # ** the sessions of the log

    def see_not_older(self, incarnation: int) -> None:
        """Sees that the log has had all sessions that were noted. Raises SetupError if it has had only so many: it is an older copy, and
        would roll back what was decided since."""
        with self._lock:
            if incarnation < self._incarnation:
                raise SetupError(
                    f"the log {self.path[: -len(SUFFIX)]} is older than it was: it has had {incarnation} sessions, and {self.path} knows of"
                    f" {self._incarnation}. It would roll back what was decided since: put the right one back"
                )

    def note_session(self, incarnation: int) -> None:
        """A session of this number has begun over the log."""
        with self._lock:
            if incarnation > self._incarnation:
                self._incarnation = incarnation
                self._write()

    # ** a log that nobody is to use

    def see_open(self) -> None:
        """Sees that nobody has to look at the databases first. Raises SetupError."""
        with self._lock:
            if self._shut is not None:
                raise SetupError(f"{self._shut}. Look at it, and then remove the line \"shut\" from {self.path}")

    def shut(self, why: str) -> None:
        """No session is to begin over the log until somebody has looked, also in another run of the program."""
        with self._lock:
            self._shut = why
            self._write()

    def _write(self) -> None:
        """Writes the file anew, whole or not at all. Called with the lock."""
        entries: list[dict[str, object]] = [{"number": number, **entry} for number, entry in sorted(self._known.items())]
        # The line of what is shut isn't the last one, so that what is left without it is JSON as well.
        shut = {} if self._shut is None else {"shut": self._shut}
        found = {"version": VERSION, **shut, "manager": self._manager, "incarnation": self._incarnation, "databases": entries}
        try:
            with open(f"{self.path}-new", "w", encoding="utf-8") as it:
                json.dump(found, it, indent=1)
                it.write("\n")
                it.flush()
                os.fsync(it.fileno())
            os.replace(f"{self.path}-new", self.path)
            folder = os.open(os.path.dirname(os.path.abspath(self.path)), os.O_RDONLY)
            try:
                os.fsync(folder)
            finally:
                os.close(folder)
        except OSError as error:
            raise SetupError(f"{self.path} can't be written: {error.strerror}") from error
