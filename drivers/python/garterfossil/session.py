"""One session with the coordinator: its process, the lines of its threads to the databases, and what is owed."""

from __future__ import annotations

import functools
import threading
import time
from collections.abc import Callable, Iterable, Mapping, Sequence
from dataclasses import dataclass

from .adapters.base import Database
from .aside import side_by_side
from .committed import Committed
from .coordinator import MOST_THREADS, Coordinator, Reply, serve_command
from .databases import Databases
from .errors import ConnectionLost, CoordinatorGone, Overdue, SetupError
from .hands import Part, Told
from .identities import Identities
from .keeper import Keeper
from .logger import log
from .logs import Log, Names, is_new_log, log_at_rest, names_for
from .mirror import Mirror
from .outcomes import Outcome, Outcomes
from .recovery import attempt, see_not_later
from .resource_manager import GLANCE, ResourceManager
from .threads import Line, Thread, Threads
from .xid import Xid


@dataclass(frozen=True)
class Settings:
    """What the sessions of a transaction manager have in common."""

    databases: Databases
    #: The path of the log.
    log: str
    threads: int
    patience: float
    #: The manager's name, if it was given one: else it is the one that the log keeps, and a new log draws one.
    name: str | None = None
    program: str = "xatm"
    #: The command of the coordinator, if it is to be another one: then nobody reads the log, unless there is a mirror.
    command: Sequence[str] | None = None
    #: Where its decisions are mirrored, if they are.
    mirror: Database | None = None

    def read_log(self) -> Log | None:
        """What the log holds, which no program has; of a new one, nothing. None if nobody reads it."""
        if self.command is None or self.mirror is not None or is_new_log(self.log):
            return log_at_rest(self.program, self.log, self.patience)
        return None

    def names_over(self, kept: Log | None) -> Names:
        """The names with which a session begins over a log that holds this."""
        if self.command is not None or kept is None:
            return Names(self.name or "", tuple(self.databases.names))
        return names_for(kept, self.name, self.databases.names)

    def words(self, names: Names) -> Sequence[str]:
        """The words that start the coordinator."""
        return self.command or serve_command(self.program, self.log, names, 2 * self.threads, len(self.databases))


class Session:
    """A session with the coordinator, which begins with the recovery of each database that can be reached."""

    def __init__(self, settings: Settings, outcomes: Outcomes, is_first: bool = False):
        self.patience = settings.patience
        self.databases = settings.databases
        self.outcomes = outcomes
        # The branches whose ends are owed to databases.
        self._owed: set[Xid] = set()
        self._lock = threading.Lock()
        #: Whether it has ended so that the next one ends what it couldn't.
        self.is_to_be_followed = False
        #: The transactions that the mirror says are decided, and the log doesn't know.
        self.unknown_to_log: set[str] = set()
        self.mirror: Mirror | None = None
        kept, is_new = settings.read_log(), is_new_log(settings.log)
        #: The manager's name stands in front of the transaction in the coordinator's identifiers.
        self.names = settings.names_over(kept)
        self.identities = Identities(settings.log, self.names.manager, is_new)
        self.identities.see_open()
        # Before the file beside it says that what stands there is this log's.
        self.committed = Committed(settings.log, self.identities.are_kept)
        self._rms = [
            ResourceManager(database, place, settings.databases.label(place.number), self.identities)
            for database, place in settings.databases.placed(self.names.manager, settings.threads, settings.patience)
        ]
        kept = self._look(settings, kept, is_new, is_first)
        self.coordinator = Coordinator.start(settings.words(self.names), settings.patience, settings.log)
        # The first of the coordinator's threads is its own. Of the others each of these has two, as far as there are so many.
        count = min(settings.threads, MOST_THREADS - 1)
        numbers = [range(number, min(2 * count + 1, MOST_THREADS), count) for number in range(1, count + 1)]
        self.threads = Threads([Thread(some, [Line(rm) for rm in self._rms]) for some in numbers])
        self.keeper = Keeper(self)
        self._begin(kept, is_first)

    def _begin(self, kept: Log | None, is_first: bool) -> None:
        """The coordinator is up: what it knows is asked for, and what was left is ended."""
        try:
            self.outcomes.find(self.coordinator)
            self.identities.note_session(self.coordinator.incarnation)
            self._take_over(kept, is_first)
            self.see_to_recoveries(0)
        except BaseException:
            self.coordinator.kill()
            if self.mirror is not None:
                self.mirror.close()
            raise

    def _look(self, settings: Settings, kept: Log | None, is_new: bool, is_first: bool) -> Log | None:
        """Looks at the databases, at the log and at the mirror before the coordinator starts: each start raises the log's incarnation, so
        that after some of them an older log would pass for a newer one. If the log is new, all databases have to be looked at. How a
        database is set up is said at the first start. What the log holds, if that is known."""
        side_by_side([functools.partial(rm.look, is_first) for rm in self._rms])
        for rm in self._rms:
            self._see_objection(rm, is_new, is_first)
        try:
            self._see_log(kept, settings.log)
        except SetupError:
            # Another program may have had it since, before the databases were looked at.
            kept = settings.read_log()
            self._see_log(kept, settings.log)
        if settings.mirror is not None:
            assert kept is not None
            self.mirror = Mirror(settings.mirror, self.names, settings.log, settings.patience)
            self.mirror.look(kept, [rm.listed for rm in self._rms], settings.name is None)
        return kept

    def _see_log(self, kept: Log | None, path: str) -> None:
        """Sees that a log that holds this isn't older than it was, nor than what the databases list. Raises SetupError."""
        if kept is not None:
            self.identities.see_not_older(kept.incarnation)
            for rm in self._rms:
                see_not_later(rm, kept.incarnation, path)

    def _see_objection(self, rm: ResourceManager, is_new: bool, is_first: bool) -> None:
        error = rm.objection
        if error is None:
            return
        if is_new and isinstance(error, ConnectionLost):
            raise ConnectionLost(f"the log is new, so {rm.label} has to be there once: {error}") from error
        if is_new or is_first and not isinstance(error, ConnectionLost):
            raise error
        log.warning("%s can't be used now: %s", rm.label, error)

    def _take_over(self, kept: Log | None, is_first: bool) -> None:
        """Ends what earlier sessions have left in doubt."""
        decisions: Mapping[str, Sequence[Xid]] = {} if kept is None else kept.decisions
        self._owed.update(xid for xids in decisions.values() for xid in xids)
        for gtrid in decisions:
            self.committed.add(gtrid)
        incarnation = self.coordinator.incarnation
        if self.mirror is not None:
            assert kept is not None
            if incarnation != kept.incarnation + 1:
                raise CoordinatorGone(f"another program has had the log since it was looked at, in session {incarnation - 1}")
            # Before the first transaction begins, and before anything is ended.
            self.unknown_to_log = self.mirror.begin(incarnation, decisions)
        log.info("session %d began: the log has %d decisions to commit", incarnation, self.coordinator.decisions)
        for rm in self._rms:
            # What can't be done now is done beside the transactions.
            error = attempt(self, rm) if rm.objection is None else None
            if isinstance(error, CoordinatorGone) or isinstance(error, SetupError) and (is_first or self.coordinator.is_gone):
                raise error

    # ** transactions

    def begin(self, until: float, is_given_up: Callable[[], bool]) -> tuple[Thread, str]:
        """A transaction begins: its thread, and its name. A thread is waited for until this moment, or until
        nobody wants it any more. Raises Overdue; NotNow while the log is new and a database wasn't looked at; or CoordinatorGone."""
        self.see_to_recoveries()
        thread = self.threads.take(until, is_given_up)
        try:
            return thread, thread.begin(self.coordinator)
        except BaseException:
            self.let_go(thread)
            raise

    def part(self, thread: Thread, gtrid: str, number: int) -> tuple[Line, Xid]:
        """The line of a thread to a database, and the branch that a transaction has there."""
        return thread.lines[number], Xid.of(self.names.manager, gtrid, thread.number, number)

    def let_go(self, thread: Thread) -> None:
        """The transaction of a thread is over, or none was begun: another one may have it."""
        try:
            thread.let_go(self.coordinator.is_gone)
        finally:
            self.threads.give_back(thread)
            # What it has left is ended, also if no other one begins.
            self.see_to_recoveries(0)

    def was_over(self, xid: Xid) -> bool:
        """Whether the branch is of a transaction that was decided to commit in an earlier session,
        and of which the log has no row any more."""
        gtrid = xid.transaction
        return self.committed.has(gtrid) and self.coordinator.ask(f"fate {gtrid}") != "committed"

    def live(self) -> set[str]:
        """The transactions that are open."""
        return {thread.gtrid for thread in self.threads.all_of_them if thread.gtrid is not None}

    def note_decision(self, gtrid: str, xids: Sequence[Xid]) -> None:
        """It is decided that a transaction commits, and no database has heard of it. Raises CoordinatorGone if the mirror can't be told."""
        self.committed.add(gtrid)
        if self.mirror is None:
            return
        try:
            self.mirror.add(gtrid, xids)
        except BaseException:
            # The next session tells it what the log has.
            self.coordinator.kill()
            raise

    def note_told(self, gtrid: str, thread: Thread, reply: Reply, told: Told, parts: Mapping[int, Part]) -> None:
        """A transaction ended so; the reply tells the thread's next one."""
        thread.end(reply)
        owing = [self._rms[rm] for rm in told.owed]
        if owing:
            with self._lock:
                self._owed.update(parts[rm].xid for rm in told.owed)
            for rm in owing:
                rm.is_recovery_due = True
        if told.outcome is Outcome.COMMITTED:
            if self.mirror is not None and not owing:
                self.mirror.over(gtrid)
            self.keeper.note_commit()
        # Mostly a connection alone was lost, and the branch is ended at once.
        for patience in (0, GLANCE):
            for rm in owing:
                self.keeper.see_to(rm, patience)

    # ** recovery

    def owed_at(self, rm: ResourceManager) -> set[Xid]:
        """The branches whose ends are owed at a database."""
        with self._lock:
            return {xid for xid in self._owed if xid.rm == rm.number}

    def owed_count(self) -> int:
        """How many there are."""
        return len(self._owed)

    def settle(self, xids: Iterable[Xid]) -> None:
        """These branches are ended: the mirror needs no decision any more of which nothing is owed."""
        with self._lock:
            over = {xid.transaction for xid in xids if xid in self._owed}
            self._owed.difference_update(xids)
            if self.mirror is not None:
                over -= {xid.transaction for xid in self._owed}
        if self.mirror is not None:
            for gtrid in over:
                self.mirror.over(gtrid)

    def standing(self) -> list[dict[str, float]]:
        """What stands at each database: how many ends are owed, how many branches are prepared, for how many seconds the oldest is, and
        whether a recovery is due."""
        return [{"owed": len(self.owed_at(rm)), **rm.standing()} for rm in self._rms]

    def see_to_recoveries(self, patience: float = GLANCE) -> None:
        """Sees to it that each database is recovered where something may be in doubt. Who starts that waits for it, for so many seconds."""
        for rm in self._rms:
            self.keeper.see_to(rm, patience)

    # ** its end

    def close(self, patience: float | None = None) -> None:
        """Ends the session, once all transactions are over. Where they aren't within so many seconds, or the patience, ends it all the same
        and raises Overdue: the next session rolls them back."""
        seconds = self.patience if patience is None else patience
        until = time.monotonic() + seconds
        self.keeper.finish()
        try:
            with self.threads.all(until):
                for rm in self._rms:
                    self._end_at(rm, until)
                if self.mirror is not None:
                    self.mirror.finish()
                self.coordinator.quit()
                for thread in self.threads.all_of_them:
                    for line in thread.lines:
                        line.close()
        except Overdue as error:
            self.coordinator.quit()
            raise Overdue(f"transactions were open for {seconds} seconds after the end: they are rolled back") from error
        finally:
            if self.mirror is not None:
                self.mirror.close()

    def _end_at(self, rm: ResourceManager, until: float) -> None:
        """Ends what the last transactions have left at a database, after the recovery that is under way there."""
        if rm.is_recovered.acquire(timeout=max(0.0, until - time.monotonic())):
            rm.is_recovered.release()
            if rm.is_recovery_due and self.owed_at(rm) and rm.can_be_reached():
                attempt(self, rm)
