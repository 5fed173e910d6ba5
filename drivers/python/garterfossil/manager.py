"""The transaction manager, as a program uses it."""

from __future__ import annotations

import contextlib
import functools
import os
import random
import re
import signal
import threading
import time
from collections.abc import Callable, Iterator, Mapping, Sequence
from typing import TYPE_CHECKING, Any, TypeVar

from . import current
from .adapters.base import Database, Options
from .aside import ASIDE, aside
from .block import Block
from .coordinator import MOST_THREADS
from .databases import NAME, Databases
from .errors import (
    CoordinatorGone,
    LogInUse,
    NestedTransaction,
    NotNow,
    Overdue,
    SetupError,
    TransactionOver,
    XaError,
)
from .logger import log
from .logs import free_log, is_new_log, see_place
from .metrics import in_json, in_prometheus, of_counts, shown
from .outcomes import Outcome, Outcomes
from .recovery import PAUSE
from .session import Session, Settings
from .threads import Thread
from .transaction import Transaction

if TYPE_CHECKING:
    from .aio import AsyncTransaction

T = TypeVar("T")

#: The name of a transaction.
GTRID = re.compile(r"[0-9a-f]{32}")
NO_OPTIONS = Options()
#: The first pause before work is tried again, in seconds, and the longest.
FIRST_PAUSE, LAST_PAUSE = 0.02, 1.0


def _see_options(name: str | None, threads: int, patience: float) -> None:
    if not 1 <= threads <= MOST_THREADS:
        raise ValueError(f"threads: 1 to {MOST_THREADS}, not {threads}")
    if not patience > 0:
        raise ValueError(f"patience: more than 0 seconds, not {patience}")
    if name and not NAME.fullmatch(name):
        raise ValueError(f"name: 1 to 16 letters, digits, _ and -, not {name!r}")


class TransactionManager:
    """Runs transactions over several databases, by the coordinator `xatm serve` (docs/SERVE.md).

    The databases are numbered by their places in the list; a dict gives them names as well, and its order is that of the
    numbers. They and the log belong together for ever: another log, or the same databases in another order, would end branches
    wrongly. One program at a time uses the log.

    Programs that share a database have each a log of its own and a `name` of its own, 1 to 16 letters, digits, _ and -: it
    stands in the identifiers of the branches, and a program leaves those of other names alone. A log keeps its name, and so those of
    the databases. If no name is given it is the one that the log keeps; that of a new log is drawn. (`name=""` makes a new log
    without one.) If the path of the log has `{worker}` in it, each process of a service takes the first number in place of that which
    no other one has.

    A transaction needs one of the coordinator's `threads` (1 to 1,024). `patience` says for how many seconds a transaction
    waits for one, how long an answer of a database is waited for, and how long a database that has none is asked again before
    it is left to the recovery. `timeout` is for how many seconds a transaction may do work, unless it is given its own.

    `mirror` is a database that is replicated already, as PostgreSQL with a synchronous standby, or a cluster of Galera. All that is
    decided is there before any database hears of it, so that where this machine is lost a new log is made of it elsewhere
    (`python -m garterfossil failover`). While it can't be reached, nothing is committed.

    Any thread of the process that made it may use it. Where the coordinator ends, the next transaction starts it anew. `ended` is
    called with each transaction after its end. Raises SetupError if a database or the log can't be used as it is, and ConnectionLost if
    the log is new and a database isn't there."""

    def __init__(
        self,
        databases: Sequence[Database] | Mapping[str, Database],
        log: str | os.PathLike[str],
        *,
        name: str | None = None,
        threads: int = 8,
        patience: float = 30.0,
        timeout: float | None = 300.0,
        program: str = "xatm",
        command: Sequence[str] | None = None,
        ended: Callable[[Transaction], None] | None = None,
        mirror: Database | None = None,
    ):
        _see_options(name, threads, patience)
        # A worker has its log as long as this is open.
        path, self._worker = free_log(os.fspath(log))
        see_place(path)
        self._settings = Settings(Databases(databases), path, threads, patience, name, program, command, mirror)
        self._timeout = timeout
        self._ended = ended
        self._process = os.getpid()
        self._lock = threading.Lock()
        self._session: Session | None = None
        self._name = name or ""
        # When a session was last tried in vain, and why.
        self._tried = 0.0, ""
        self._is_closed = False
        self._outcomes = Outcomes()
        self._looks: list[Callable[[Transaction], None]] = []
        self._start()

    def _start(self) -> None:
        """Begins the first session."""
        try:
            aside(self._begin_first)
        except XaError:
            if self._worker is not None:
                self._worker.close()
            raise
        except BaseException:
            # It was interrupted, and what was begun goes on to its end.
            self._is_closed = True
            ASIDE.post(self._close)
            raise

    def _begin_first(self) -> None:
        was_new = is_new_log(self.log)
        try:
            self._current(is_first=True)
        except SetupError:
            # The coordinator of a program that was killed may have made the log since its names were looked for.
            if not was_new or is_new_log(self.log) or self._settings.name is not None:
                raise
            self._current(is_first=True)

    def __repr__(self) -> str:
        state = "closed" if self._is_closed else "open"
        name = f" {self.name}" if self.name else ""
        return f"<TransactionManager{name} over {len(self._settings.databases)} databases, log {self._settings.log}, {state}>"

    def __enter__(self) -> TransactionManager:
        return self

    def __exit__(self, *_: object) -> None:
        self.close()

    @property
    def name(self) -> str:
        """The manager's name, which stands in the identifiers of its branches; empty, if it has none."""
        return self._name

    @property
    def log(self) -> str:
        """The path of its log."""
        return self._settings.log

    # ** transactions

    def transaction(
        self,
        *,
        timeout: float | None | str = "the manager's",
        isolation: str | None = None,
        read_only: bool = False,
        independent: bool = False,
    ) -> contextlib.AbstractContextManager[Transaction]:
        """A transaction for a `with` block: it is committed at the end of the block, and rolled back if an exception
        leaves it. Raises RolledBack, OutcomeUnknown or HeuristicEnd at the end of the block.

        `timeout` is for how many seconds it may do work (None: for ever); then it can only be rolled back. `isolation` is one of SQL's
        levels, in lower case, and with `read_only` the databases refuse what writes. A thread or task that has a transaction already gets
        NestedTransaction, unless this one is to be `independent`: it commits whatever the other one does."""
        options = Options(isolation, read_only) if isolation or read_only else NO_OPTIONS
        return Block(self, options, self._timeout if isinstance(timeout, str) else timeout, independent)

    def transaction_async(self, **options: Any) -> contextlib.AbstractAsyncContextManager[AsyncTransaction]:
        """A transaction for an `async with` block, with the options of `transaction`: each has a thread of its own, so that the loop
        isn't held up."""
        from .aio import transaction

        return transaction(self, **options)

    def run(self, work: Callable[[Transaction], T], *, tries: int = 5, **options: object) -> T:
        """Does work in a transaction, with the `options` of `transaction`, and returns what it returns. If the transaction is rolled
        back for a reason of a moment, as a deadlock or a lost connection, the work is done again in another one, after a pause, with
        so many tries in all. What the last try raised is raised then, and all else at once: so the work is to change nothing outside of
        the databases."""
        pause = FIRST_PAUSE
        for left in reversed(range(tries)):
            transaction = None
            try:
                with self.transaction(**options) as transaction:  # type: ignore[arg-type]
                    done = work(transaction)
                return done
            except Exception as error:
                if left == 0 or transaction is None:
                    raise
                if not transaction.is_worth_trying_again and not transaction.was_left_for_a_moment(error):
                    raise
                log.info("%s was rolled back, and is tried again: %s", transaction.gtrid, error)
            time.sleep(pause * random.uniform(0.5, 1.0))
            pause = min(LAST_PAUSE, 2 * pause)
        raise ValueError(f"tries: 1 or more, not {tries}")

    def outcome(self, gtrid: str) -> Outcome:
        """How the transaction of this `gtrid` ended: as it was told, or after an OutcomeUnknown as the log says, COMMITTED or ROLLED_BACK.
        UNKNOWN if nobody could tell of one in a single database, of which the log has nothing, if another run of the program had it, or if
        it was long ago. Starts the coordinator again if that has ended. Raises ValueError for what is no `gtrid`."""
        if not GTRID.fullmatch(gtrid):
            raise ValueError(f"a gtrid has 32 hexadecimal digits: {gtrid!r}")
        return aside(lambda: self._outcomes.of(gtrid, self._current().coordinator))

    def counts(self) -> dict[str, float]:
        """How many transactions have `begun` and are `open`, how many were `committed` and `rolled_back`, or are `unknown`, how many of
        them ended otherwise in a database (`heuristic`), how many ends of branches are `owed` to databases, and for how many
        `seconds` transactions were open, all together."""
        session = self._session
        return {**self._outcomes.counts(), "owed": 0 if session is None else session.owed_count()}

    def metrics(self, form: str = "prometheus") -> str:
        """The counts, and what stands at each database, as Prometheus reads them, or as `json`. Begins nothing, and waits for nothing."""
        session = self._session
        counts: dict[str, float] = {**self.counts(), "threads": self._settings.threads, "incarnation": 0, "waiting": 0}
        names = self._settings.databases.names or [str(number) for number in range(len(self._settings.databases))]
        at: list[dict[str, float]] = [{} for _ in names]
        if session is not None:
            at = session.standing()
            counts.update(incarnation=session.coordinator.incarnation, waiting=session.threads.waiting)
        found = of_counts(counts, self.name, self._outcomes.rolled_back(), [{"name": name, **one} for name, one in zip(names, at)])
        return in_json(shown(found)) if form == "json" else in_prometheus(found)

    @property
    def current(self) -> Transaction | None:
        """The transaction in whose block the thread is, or the task of asyncio, if it is in one. A task or a thread that was started
        within a block isn't in it, unless it is so by `within`."""
        entry = current.innermost(self)
        return entry.transaction if entry is not None and entry.is_mine else None

    def require_current(self) -> Transaction:
        """The same. Raises TransactionOver if there is none."""
        entry = current.innermost(self)
        if entry is None:
            raise TransactionOver(
                "there is no transaction here: neither this thread nor this task is in a block of the manager's transaction(), nor in"
                " one of within(t)"
            )
        if not entry.is_mine:
            raise TransactionOver(
                f"the transaction {entry.transaction.gtrid} is that of another thread or task, within whose block this one was started:"
                " work in it here needs `with xa.within(t):`"
            )
        return entry.transaction

    @contextlib.contextmanager
    def within(self, transaction: Transaction) -> Iterator[Transaction]:
        """A `with` block in which a transaction is `current` that was begun by another thread or task, as in an endpoint of a web
        framework whose dependency began it. The transaction goes on after it. One thread or task at a time is to work in it. Raises
        TransactionOver if it is over."""
        if transaction.outcome is not Outcome.OPEN:
            raise TransactionOver(f"the transaction is over: {transaction.outcome.value}")
        entry = current.enter(self, transaction)
        try:
            yield transaction
        finally:
            current.leave(entry)

    def database(self, key: int | str) -> Database:
        """A database, by its place or its name."""
        databases = self._settings.databases
        return databases[databases.number_of(key)]

    def close(self, patience: float | None = None) -> None:
        """Ends the coordinator, once all transactions are over. Raises Overdue if they aren't within so many seconds, or the patience: they
        are rolled back then, and nothing stays prepared at a database that can be reached. Raises XaError, and does nothing, in a
        block of a transaction. In another process than its own does nothing."""
        if os.getpid() != self._process:
            return
        if current.innermost(self) is not None:
            raise XaError("close() in the block of a transaction: it is to be left first")
        aside(functools.partial(self._close, patience))

    def _close(self, patience: float | None = None) -> None:
        with self._lock:
            self._is_closed = True
            session, self._session = self._session, None
        try:
            if session is not None and not session.coordinator.is_gone:
                session.close(patience)
            if session is not None and session.is_to_be_followed:
                self._end_what_was_left()
        except Overdue:
            self._end_what_was_left()
            raise
        finally:
            if self._worker is not None:
                self._worker.close()

    def _end_what_was_left(self) -> None:
        """Ends what open transactions had prepared, or had begun: by a session that does nothing else, as the next start would."""
        try:
            Session(self._settings, self._outcomes).close()
        except XaError as error:
            log.warning("what open transactions left is ended by the next start: %s", error)

    def close_at(self, number: int = signal.SIGTERM, patience: float | None = None) -> None:
        """Has the manager closed at a signal, as a service manager sends it to stop the program: open transactions have so many seconds
        to end, or the patience. Then the signal does what it did before. To be called by the main thread."""
        before = signal.getsignal(number)

        def close(*_: Any) -> None:
            # A second one does at once what it did before.
            signal.signal(number, before)
            threading.Thread(target=self._close_for, args=[number, patience], name="garterfossil close").start()

        signal.signal(number, close)

    def _close_for(self, number: int, patience: float | None) -> None:
        try:
            self._close(patience)
        except XaError as error:
            log.warning("%s", error)
        finally:
            os.kill(os.getpid(), number)

    # ** for the blocks of transactions

    def before_each_commit(self, look: Callable[[Transaction], None]) -> None:
        """Has a function called with each transaction before it is committed. If it raises an XaError, the transaction is rolled back."""
        self._looks.append(look)

    def look_before_commit(self, transaction: Transaction) -> None:
        """Calls these functions."""
        for look in self._looks:
            look(transaction)

    def see_may_begin(self, is_independent: bool) -> None:
        """Sees that a block may be entered here. Raises NestedTransaction, or XaError in another process."""
        if os.getpid() != self._process:
            raise self._forked()
        entry = current.innermost(self)
        if entry is not None and entry.is_mine and not is_independent:
            raise NestedTransaction("this thread or task has a transaction already: independent=True is for one that commits by itself")

    def begin(self, is_given_up: Callable[[], bool] = lambda: False) -> tuple[Session, Thread, str]:
        """A transaction that has begun, in the session that is up, or else in the next one: with its thread and its name. No thread is
        waited for any more once it is given up."""
        until = time.monotonic() + self._settings.patience
        while True:
            try:
                session = self._session
                if session is None or session.coordinator.is_gone:
                    session = self._current()
                thread, gtrid = session.begin(until, is_given_up)
                self._outcomes.begin()
                return session, thread, gtrid
            except LogInUse:
                raise
            except (CoordinatorGone, NotNow) as gone:
                if self._is_closed or time.monotonic() >= until:
                    raise
                if isinstance(gone, CoordinatorGone):
                    log.warning("%s", gone)
                time.sleep(PAUSE)

    def count_end(self, transaction: Transaction) -> None:
        """A transaction has ended."""
        self._outcomes.end(transaction, time.monotonic() - transaction.begun)

    def note_end(self, transaction: Transaction) -> None:
        """It has, and the program's function is called for that."""
        if self._ended is not None:
            try:
                self._ended(transaction)
            except Exception:
                log.exception("what is called at the end of a transaction failed; %s stands", transaction.gtrid)

    # ** the session

    def _forked(self) -> XaError:
        return XaError(f"the transaction manager was made in process {self._process}: make one after the fork, in each process")

    def _current(self, is_first: bool = False) -> Session:
        """The session that is up. Where another thread has tried in vain to begin one since this was asked for, it isn't tried again."""
        if os.getpid() != self._process:
            raise self._forked()
        asked = time.monotonic()
        with self._lock:
            if self._is_closed:
                raise CoordinatorGone("the transaction manager is closed")
            if self._session is None or self._session.coordinator.is_gone:
                tried, why = self._tried
                if tried > asked:
                    raise CoordinatorGone(why)
                begun = time.monotonic()
                try:
                    self._session = Session(self._settings, self._outcomes, is_first)
                    self._name = self._session.names.manager
                except CoordinatorGone as gone:
                    self._tried = begun, str(gone)
                    raise
            return self._session
