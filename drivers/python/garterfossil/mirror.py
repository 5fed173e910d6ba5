"""The mirror: what the log has decided, in a database that is replicated already, so that a new log can be made of it where the
machine that had the log is lost."""

from __future__ import annotations

import contextlib
import os
import threading
from collections.abc import Collection, Iterator, Mapping, Sequence
from concurrent.futures import Future

from .adapters.base import Connection, Database, Place
from .databases import MOST
from .errors import ConnectionLost, CoordinatorGone, SetupError, XaError
from .logger import log
from .logs import Log, Names
from .xid import Xid

#: The tables, whose texts are compared byte by byte: one row for each manager, and one for each of its decisions.
MANAGERS = "garterfossil_manager (name {16} PRIMARY KEY, log text NOT NULL, rms text NOT NULL, incarnation bigint NOT NULL)"
DECISIONS = "garterfossil_decision (name {16} NOT NULL, gtrid {32} NOT NULL, branches text NOT NULL, PRIMARY KEY (name, gtrid))"

#: So many rows leave at once, and so many by one statement at most.
AT_ONCE, MOST_REMOVED = 8, 256
#: By how much a failover raises the incarnation: more than the starts that the mirror may not have been told of, one for each process that
#: waits for the log.
MARGIN = 100


class Tables:
    """The tables of the mirror, over one connection to its database."""

    def __init__(self, database: Database, manager: str, patience: float):
        self._database = database
        self._place = Place(manager, MOST, 0, patience)
        self._connection: Connection | None = None

    @contextlib.contextmanager
    def at_work(self) -> Iterator[Connection]:
        """The connection, which is made anew where it is lost, for as long as the patience lasts. Where something fails on it, it is
        given up, and what was under way with it. So it is where the database warns: PostgreSQL answers a commit whose wait for the
        standby was cancelled as any other, with a warning beside it."""
        connection = self._connection
        is_new = connection is None or not connection.is_there()
        if connection is None or is_new:
            self.close()
            connection = self._connection = self._database.connect(self._place)
        try:
            with connection.timed(self._place.patience):
                if is_new:
                    connection.serve_mirror()
                yield connection
                warnings = connection.warnings()
                if warnings:
                    raise ConnectionLost(f"it may be on one machine alone: {warnings[0]}")
        except BaseException as error:
            self.close()
            if isinstance(error, XaError) or not isinstance(error, Exception):
                raise
            raise ConnectionLost(str(error).strip()) from error

    def close(self) -> None:
        """Closes the connection."""
        connection, self._connection = self._connection, None
        if connection is not None:
            connection.close()

    @contextlib.contextmanager
    def at_once(self) -> Iterator[Connection]:
        """One transaction of the mirror's database."""
        with self.at_work() as connection:
            connection.run("BEGIN")
            yield connection
            connection.run("COMMIT")

    def make(self) -> None:
        """Makes the tables, unless they are there."""
        with self.at_work() as connection:
            for table in (MANAGERS, DECISIONS):
                connection.run(f"CREATE TABLE IF NOT EXISTS {self._database.with_exact_texts(table)}")

    def insert(self, connection: Connection, rows: Sequence[tuple[str, Sequence[Xid]]], incarnation: int) -> int:
        """Adds decisions, of which none has a row, if the manager is in this incarnation: how many, all of them or none."""
        values = " UNION ALL ".join(["SELECT %s AS gtrid, %s AS branches", *["SELECT %s, %s"] * (len(rows) - 1)])
        words = [word for gtrid, xids in rows for word in (gtrid, " ".join(map(str, sorted(xids))))]
        statement = (
            "INSERT INTO garterfossil_decision (name, gtrid, branches) SELECT m.name, d.gtrid, d.branches FROM garterfossil_manager m"
            f" JOIN ({values}) d ON 1 = 1 WHERE m.name = %s AND m.incarnation = %s {self._database.SHARED}"
        )
        return connection.run(statement, [*words, self._place.manager, incarnation]).rowcount

    def remove(self, connection: Connection, gtrids: Collection[str]) -> None:
        """Takes these decisions away, some by each statement: no database takes any number of parameters."""
        left = list(gtrids)
        while left:
            some, left = left[:MOST_REMOVED], left[MOST_REMOVED:]
            which = f"gtrid IN ({', '.join(['%s'] * len(some))})"
            connection.run(f"DELETE FROM garterfossil_decision WHERE name = %s AND {which}", [self._place.manager, *some])

    def incarnation(self, connection: Connection) -> int | None:
        """The incarnation of the manager, which stays as it is until the transaction ends. None, if the mirror doesn't know it."""
        rows = connection.run("SELECT incarnation FROM garterfossil_manager WHERE name = %s FOR UPDATE", [self._place.manager]).rows
        return int(rows[0][0]) if rows else None

    def set_incarnation(self, connection: Connection, incarnation: int) -> None:
        """Sets the incarnation of the manager."""
        connection.run("UPDATE garterfossil_manager SET incarnation = %s WHERE name = %s", [incarnation, self._place.manager])

    def decisions(self, connection: Connection) -> dict[str, list[Xid]]:
        """The manager's transactions that are decided to commit, each with its branches."""
        rows = connection.run("SELECT gtrid, branches FROM garterfossil_decision WHERE name = %s", [self._place.manager]).rows
        return {gtrid: [Xid.parse(branch) for branch in branches.split()] for gtrid, branches in rows}

    def take_over(self) -> Log:
        """The log of the manager, as the mirror holds it. From now on the session that had it can't decide any more: its incarnation is over."""
        with self.at_once() as connection:
            before = self.incarnation(connection)
            if before is None:
                raise SetupError(f"the mirror knows no manager {self._place.manager}")
            self.set_incarnation(connection, before + MARGIN)
            rows = connection.run("SELECT rms FROM garterfossil_manager WHERE name = %s", [self._place.manager]).rows
            names = Names(self._place.manager, tuple(rows[0][0].split()))
            return Log(before + MARGIN, self.decisions(connection), names=names)


@contextlib.contextmanager
def _as_gone() -> Iterator[None]:
    """Without the mirror there is no session."""
    try:
        yield
    except ConnectionLost as error:
        raise CoordinatorGone(f"the mirror can't be used now: {error}") from error


class Mirror:
    """The mirror of one session. A decision is in it before any xa_commit of it is made, and so a log that is made of it lacks no
    decision of which a database has heard."""

    def __init__(self, database: Database, names: Names, path: str, patience: float):
        if not names.manager:
            raise SetupError(
                "a mirror is for a manager with a name, and this log keeps none: give a new log a name, once nothing is in doubt"
            )
        self._names, self._path = names, os.path.abspath(path)
        # Decisions come by one connection, and leave by another, for which nobody waits.
        self._adding = Tables(database, names.manager, patience)
        self._removing = Tables(database, names.manager, patience)
        self._lock, self._turn, self._taking = threading.Lock(), threading.Lock(), threading.Lock()
        # Decisions that are yet to be told, and transactions whose rows may leave.
        self._asked: list[tuple[str, Sequence[Xid], Future[None]]] = []
        self._left: list[str] = []
        self._incarnation = 0
        # Of what the mirror holds and the log doesn't, what is surely over.
        self._over: set[str] = set()

    def look(self, kept: Log, listings: Sequence[Sequence[Xid] | None], is_name_drawn: bool) -> None:
        """Looks, before the coordinator starts, whether a session may begin over the log, of which this is known, and over databases
        that list these branches. A start that is refused after that has raised the log's incarnation, and after a few of them an older log
        would pass for a newer one. Raises SetupError if the log is older than the mirror, and CoordinatorGone if the mirror can't be
        had. Makes its tables."""
        with _as_gone():
            self._adding.make()
            with self._adding.at_once() as connection:
                before = self._adding.incarnation(connection)
                if before is None and kept.incarnation == 0 and is_name_drawn:
                    self._see_no_other(connection)
                if before is not None and before > kept.incarnation:
                    raise self._older(kept.incarnation, before)
                if before is not None and before < kept.incarnation:
                    # Starts that the mirror wasn't told of: so there is never more than one.
                    self._adding.set_incarnation(connection, kept.incarnation)
                self._over = self._see_decisions(self._adding.decisions(connection), kept, listings)
        self._adding.close()

    def _see_no_other(self, connection: Connection) -> None:
        """Sees that the new log isn't at the place of one that a lost machine had. Raises SetupError."""
        rows = connection.run("SELECT name FROM garterfossil_manager WHERE log = %s", [self._path]).rows
        if rows:
            raise SetupError(
                f"there is no log at {self._path}, and the mirror knows the manager {rows[0][0]}, whose log was there: make it anew by"
                " `python -m garterfossil failover`; or give this manager a name of its own (name=), if it is another one"
            )

    def _see_decisions(
        self, mirrored: Mapping[str, Sequence[Xid]], kept: Log, listings: Sequence[Sequence[Xid] | None]
    ) -> set[str]:
        """Of what the mirror holds and the log doesn't, the transactions that are surely over: their rows left the log as they left it, and
        only the mirror wasn't told. Raises SetupError if a database still lists a branch of one: then the log is the older one."""
        over = set()
        listed = {xid for listing in listings for xid in listing or ()}
        for gtrid, xids in mirrored.items():
            if gtrid in kept.decisions:
                continue
            if listed.intersection(xids):
                raise SetupError(
                    f"the log {self._path} is older than its mirror, which has decided to commit {gtrid}, of which the log knows nothing:"
                    " put the right one back, or make it of the mirror (python -m garterfossil failover)"
                )
            if all(xid.rm < len(listings) and listings[xid.rm] is not None for xid in xids):
                over.add(gtrid)
        return over

    def begin(self, incarnation: int, decisions: Mapping[str, Sequence[Xid]]) -> set[str]:
        """A session begins, over a log that has these decisions: the mirror has them then. What else it keeps: transactions that are
        decided by it alone, of which not all databases could be looked at. Raises SetupError if another machine has taken over since it
        was looked at, and CoordinatorGone if the mirror can't be had."""
        with _as_gone(), self._adding.at_once() as connection:
            if connection.is_replicated() is False:
                log.warning("the mirror has no synchronous standby, and is no cluster: it is lost with its own machine")
            before = self._adding.incarnation(connection)
            if before is not None and before >= incarnation:
                raise self._older(incarnation, before)
            self._note(connection, incarnation, before is None)
            held = set(self._adding.decisions(connection))
            self._adding.remove(connection, held & self._over - set(decisions))
            new = [decision for decision in decisions.items() if decision[0] not in held]
            if new:
                self._adding.insert(connection, new, incarnation)
        self._incarnation = incarnation
        return held - self._over - set(decisions)

    def _older(self, incarnation: int, before: int) -> SetupError:
        return SetupError(
            f"the log {self._path} is older than its mirror, in session {incarnation} and not after {before}: put the right one"
            " back, or make it of the mirror (python -m garterfossil failover)"
        )

    def _note(self, connection: Connection, incarnation: int, is_new: bool) -> None:
        known = [self._path, " ".join(self._names.rms), incarnation, self._names.manager]
        if is_new:
            connection.run("INSERT INTO garterfossil_manager (log, rms, incarnation, name) VALUES (%s, %s, %s, %s)", known)
        else:
            connection.run("UPDATE garterfossil_manager SET log = %s, rms = %s, incarnation = %s WHERE name = %s", known)

    def add(self, gtrid: str, xids: Sequence[Xid]) -> None:
        """The transaction is decided to commit: those of several threads that come together are by one
        commit of the mirror's database. Raises CoordinatorGone, and the session is over, if nobody
        knows whether it is there: it stands all the same, as the log has it."""
        mine: Future[None] = Future()
        with self._lock:
            self._asked.append((gtrid, xids, mine))
        with self._turn:
            if not mine.done():
                with self._lock:
                    some, self._asked = self._asked, []
                error = self._add_all([decision[:2] for decision in some])
                for *_, told in some:
                    if error is None:
                        told.set_result(None)
                    else:
                        told.set_exception(error)
        mine.result()

    def _add_all(self, some: Sequence[tuple[str, Sequence[Xid]]]) -> CoordinatorGone | None:
        """Adds decisions: why nobody knows whether they are there, if so."""
        try:
            with self._adding.at_work() as connection:
                count = self._adding.insert(connection, some, self._incarnation)
        except BaseException as raised:
            # Other threads wait for it as well.
            error = CoordinatorGone(f"decisions can't be told to the mirror: {raised}")
            error.__cause__ = raised
            return error
        taken = "the mirror is in a later session of this manager: another machine has taken over"
        return None if count == len(some) else CoordinatorGone(taken)

    def over(self, gtrid: str) -> None:
        """Each branch of the transaction has acknowledged, or is known to be over: its row may leave, with those of some others."""
        with self._lock:
            self._left.append(gtrid)
            are_enough = len(self._left) >= AT_ONCE
        if are_enough:
            self.finish()

    def finish(self) -> None:
        """Has all of them leave. A row that stays costs a failover some calls, and no more."""
        with self._lock:
            gtrids, self._left = self._left, []
        if not gtrids:
            return
        with self._taking:
            try:
                with self._removing.at_work() as connection:
                    self._removing.remove(connection, gtrids)
            except Exception as error:
                log.warning("rows stay in the mirror: %s", error)

    def close(self) -> None:
        """Closes its connections."""
        with self._turn:
            self._adding.close()
        with self._taking:
            self._removing.close()


def managers_in(database: Database, patience: float) -> dict[str, str]:
    """The managers that a mirror knows, each with the path of its log."""
    try:
        with contextlib.closing(Tables(database, "", patience)) as tables:
            tables.make()
            with tables.at_work() as connection:
                return {name: path for name, path in connection.run("SELECT name, log FROM garterfossil_manager ORDER BY name")}
    except XaError as error:
        raise SetupError(f"the mirror can't be read: {error}") from error
