"""A database under its number, as a session of the coordinator has it."""

from __future__ import annotations

import contextlib
import threading
import time

from .adapters.base import Connection, Database, Place
from .errors import ConnectionLost
from .identities import Identities
from .logger import log
from .xid import Call, Xid

#: For so many seconds a transaction that begins waits for a recovery that it has started.
GLANCE = 0.5
#: So many branches that were rolled back are kept in mind, and for so many seconds one is left alone that can't be ended now.
MOST_UNDONE, PUT_OFF = 10000, 10.0


class ResourceManager:
    """A database under its number, with the connections that the session's lines have to it."""

    def __init__(self, database: Database, place: Place, label: str, identities: Identities | None = None):
        self.place = place
        self._identities = identities
        #: What messages call it.
        self.label = label
        #: Whether something may be in doubt there that no transaction of the session will end.
        self.is_recovery_due = True
        #: Held by the recovery that is under way.
        self.is_recovered = threading.Lock()
        #: The branches that this session has prepared, and that are neither ended nor owed, each with when that was.
        self.prepared: dict[Xid, float] = {}
        self._database = database
        self._lock = threading.Lock()
        self._kept: set[int] = set()
        # There may be connections of earlier drivers, and later those that lines have lost.
        self._has_strays = True
        # When it was last seen that there is no connection to be had, and why.
        self._failed = 0.0
        self._failure = ""
        # How many calls were made that bring branches to their ends, and how many seconds they took.
        self._counting = threading.Lock()
        self._calls, self._call_seconds = 0, 0.0
        # What was logged last of why it can't be used.
        self._said = ""
        # Prepared branches that this session has rolled back, the oldest first; and those that can't be ended now, each with until when it
        # is left alone.
        self._undone: dict[Xid, None] = {}
        self._put_off: dict[Xid, float] = {}
        # Whether the program has never had a connection to it yet, by which it could see how it keeps what it is told.
        self._is_unseen = False
        #: What was found against it before the session.
        self.objection: Exception | None = None
        #: The branches of the manager that it listed then; None if nobody knows.
        self.listed: list[Xid] | None = None

    @property
    def number(self) -> int:
        """The number by which the coordinator knows it."""
        return self.place.number

    def connect(self) -> Connection:
        """A new connection. Those that are no line's are ended first: what they had under way could still happen."""
        asked = time.monotonic()
        with self._lock:
            if self._failed > asked:
                # Another thread has waited for it meanwhile.
                raise ConnectionLost(self._failure)
            try:
                connection = self._database.connect(self.place)
                try:
                    self._see_identity(connection, keep=True)
                    if self._is_unseen:
                        with connection.timed(self.place.patience):
                            self._see_durable(connection)
                    if self._has_strays:
                        self._end_strays(connection)
                except BaseException:
                    connection.close()
                    raise
            except ConnectionLost as error:
                self._failed, self._failure = time.monotonic(), str(error)
                raise
            self._kept.add(connection.number)
            return connection

    def _see_identity(self, connection: Connection, keep: bool) -> None:
        """Sees that it is the database that the log belongs to."""
        if self._identities is not None:
            with connection.timed(self.place.patience):
                self._identities.see(self.number, self.label, self._database, connection, keep)

    def _see_durable(self, connection: Connection) -> None:
        """Warns of what the database may lose, once. Raises SetupError if that is too much."""
        for text in connection.see_durable():
            log.warning("%s: %s", self.label, text)
        self._is_unseen = False

    def _end_strays(self, new: Connection) -> None:
        ended = self._database.end_connections(self._kept | {new.number}, self.place)
        self._has_strays = False
        if ended:
            log.warning("%d connections to %s were ended, which this manager or an earlier run of it had left", ended, self.label)

    def see_no_strays(self, connection: Connection) -> None:
        """Sees that there are no connections but those of lines, of which this is one."""
        with self._lock:
            if self._has_strays:
                self._end_strays(connection)

    def release(self, connection: Connection) -> None:
        """A connection isn't needed any more, on which nothing is under way."""
        connection.close()
        with self._lock:
            self._kept.discard(connection.number)

    def drop(self, connection: Connection) -> None:
        """A line has lost the connection, or gives it up."""
        self.is_recovery_due = True
        connection.close()
        with self._lock:
            self._has_strays = True
            self._kept.discard(connection.number)

    def by_hand(self, xid: Xid) -> str:
        """The statement by which an operator commits a branch."""
        return self._database.by_hand(Call("xa_commit", xid))

    def standing(self) -> dict[str, float]:
        """How many branches are prepared, for how many seconds the oldest is, and whether a recovery is due."""
        moments = list(self.prepared.values())
        oldest = time.monotonic() - min(moments) if moments else 0.0
        found = {"prepared": len(moments), "prepared_seconds": oldest, "recovery_due": int(self.is_recovery_due)}
        return {**found, "calls_total": self._calls, "call_seconds_total": self._call_seconds}

    def note_call(self, seconds: float) -> None:
        """A call that brings a branch to its end took so many seconds."""
        with self._counting:
            self._calls += 1
            self._call_seconds += seconds

    # ** recovery

    def can_be_reached(self) -> bool:
        """Whether a connection is to be had. Waits for that as long as the database is silent."""
        try:
            return self._database.can_be_reached(self.place)
        except Exception as error:
            self.say_once(str(error))
            return False

    def say_once(self, text: str) -> None:
        """Logs why it can't be used, unless that was said last."""
        if text != self._said:
            log.error("%s: %s", self.label, text)
            self._said = text

    def note_undone(self, xid: Xid) -> None:
        """This session has rolled back a branch that is prepared."""
        with self._lock:
            self._undone[xid] = None
            if len(self._undone) > MOST_UNDONE:
                del self._undone[next(iter(self._undone))]

    @property
    def undone(self) -> set[Xid]:
        """The last of such branches. A database may list them again, after a crash."""
        with self._lock:
            return set(self._undone)

    def put_off(self, xid: Xid) -> None:
        """A branch of an earlier session can't be ended now, as while another connection ends it."""
        with self._lock:
            self._put_off[xid] = time.monotonic() + PUT_OFF

    def put_off_now(self) -> set[Xid]:
        """The branches that a scan leaves out for a while."""
        with self._lock:
            now = time.monotonic()
            self._put_off = {xid: until for xid, until in self._put_off.items() if until > now}
            return set(self._put_off)

    def look(self, is_first: bool) -> None:
        """Looks, before a session, whether a connection is to be had, whether the database is the one that the log belongs to, and what it
        lists of the manager's, which is then in `listed`. What is against it is in `objection`."""
        self.objection, self.listed = None, None
        try:
            with contextlib.closing(self._database.connect(self.place)) as connection:
                self._see_identity(connection, keep=False)
                with connection.timed(self.place.patience):
                    if is_first:
                        self._see_durable(connection)
                    self.listed = connection.listed()
        except Exception as error:
            self.objection = error
            self._is_unseen = is_first
