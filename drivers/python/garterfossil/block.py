"""The block of a transaction: it begins a transaction, and ends it however it is left. If nobody is there any more who would leave it,
the transaction is ended all the same."""

from __future__ import annotations

import _thread
import functools
import os
import queue
import threading
import weakref
from collections.abc import Callable
from typing import TYPE_CHECKING

from . import current
from .adapters.base import Options
from .aside import aside
from .errors import TransactionOver, XaError
from .logger import log
from .outcomes import Outcome
from .session import Session
from .threads import Thread
from .transaction import Transaction

if TYPE_CHECKING:
    from .manager import TransactionManager


class Block:
    """What `TransactionManager.transaction` gives for a `with` statement. It may be entered once."""

    def __init__(self, manager: TransactionManager, options: Options, timeout: float | None, independent: bool):
        self._manager = manager
        self._options = options
        self._timeout = timeout
        self._is_independent = independent
        # Taken by whoever enters it, and never given back.
        self._once = threading.Lock()
        self._process = os.getpid()
        self._lease: Lease | None = None
        self._is_given_up = False
        self._entry: current.Entry | None = None

    def __enter__(self) -> Transaction:
        manager = self._manager
        manager.see_may_begin(self._is_independent)
        if not self._once.acquire(blocking=False):
            raise XaError("this transaction() was entered before, perhaps by another thread: ask for one for each block")
        try:
            aside(self._begin, may_leave=True)
            assert self._lease is not None
            transaction = self._lease.transaction
            transaction.before_commit(functools.partial(manager.look_before_commit, transaction))
            self._entry = current.enter(manager, transaction)
            return transaction
        except BaseException:
            self._give_up()
            raise

    def _begin(self) -> None:
        session, thread, gtrid = self._manager.begin(lambda: self._is_given_up)
        transaction = Transaction(session, thread, gtrid, self._options, self._timeout)
        self._lease = Lease(self._manager, session, thread, transaction)
        # From now on it is ended, whatever becomes of the block.
        REAPER.know(self, self._lease)
        if self._is_given_up:
            REAPER.give_up(self._lease)

    def __exit__(self, _: object, error: BaseException | None, __: object) -> None:
        try:
            held, entry = self._lease, self._entry
            assert held is not None and entry is not None
            if os.getpid() == self._process:
                self._leave(held, error)
            elif error is None:
                # It was forked off within the block.
                raise TransactionOver(f"the transaction is that of process {self._process}, which goes on with it: nothing was done")
        finally:
            self._see_left()

    def _see_left(self) -> None:
        """Sees that nobody is in the block any more, whatever has come between."""
        try:
            if self._entry is not None:
                current.leave(self._entry)
            if os.getpid() == self._process and self._lease is not None:
                self._lease.note()
        finally:
            self._give_up()

    @staticmethod
    def _leave(held: Lease, error: BaseException | None) -> None:
        """Ends the transaction, as the block is left."""
        transaction = held.transaction
        if error is None:
            try:
                transaction.look_before_commit()
            except BaseException as objection:
                aside(functools.partial(held.end, functools.partial(transaction.leave, objection)))
                raise
        aside(functools.partial(held.end, functools.partial(transaction.leave, error)))

    def _give_up(self) -> None:
        """Whatever has interrupted it, the lease is ended, if that isn't under way, and that is noted."""
        self._is_given_up = True
        if self._lease is not None and not self._lease.is_noted and os.getpid() == self._process:
            REAPER.give_up(self._lease)


class Lease:
    """What a block has from its beginning to its end. Whoever is first ends it: the block, as it is left, or else the reaper."""

    def __init__(self, manager: TransactionManager, session: Session, thread: Thread, transaction: Transaction):
        self.transaction = transaction
        self._manager = manager
        self._session = session
        self._thread = thread
        # Each is taken once, by who ends it and by who notes that.
        self._once, self._noted = threading.Lock(), threading.Lock()
        self._is_given_up = False
        #: By what it is known to the reaper.
        self.key: weakref.ref[Block] | None = None

    def end(self, step: Callable[[], None]) -> None:
        """Ends the transaction by a step, or else by a rollback, and gives the thread back."""
        if not self._once.acquire(blocking=False):
            return
        transaction = self.transaction
        try:
            step()
        finally:
            try:
                if transaction.outcome is Outcome.OPEN:
                    transaction.roll_back()
            finally:
                REAPER.forget(self)
                try:
                    self._session.let_go(self._thread)
                finally:
                    self._manager.count_end(transaction)
                    transaction.is_let_go = True
                    if self._is_given_up:
                        self.note()

    @property
    def is_noted(self) -> bool:
        """Whether the program's function was called for its end."""
        return self._noted.locked()

    def note(self) -> None:
        """Has the program's function called for its end, once it is over."""
        if self.transaction.is_let_go and self._noted.acquire(blocking=False):
            self._manager.note_end(self.transaction)

    def give_up(self) -> None:
        """Nobody leaves the block any more: it is rolled back, unless somebody ends it already."""
        self._is_given_up = True
        try:
            if not self._once.locked():
                log.warning("the block of %s was never left, and is rolled back", self.transaction.gtrid)
            self.end(lambda: None)
            self.note()
        except XaError as error:
            log.warning("%s, which was given up: %s", self.transaction.gtrid, error)


class Reaper:
    """Ends what nobody ends: the transactions of blocks that are gone without having been left, as after an exception of a signal handler
    in the middle of that, or a generator that nobody goes on with."""

    def __init__(self) -> None:
        # The references to blocks that are gone, and leases that are given up. It takes each in one step, which nothing interrupts.
        self._gone: queue.SimpleQueue[weakref.ref[Block] | Lease] = queue.SimpleQueue()
        self._leases: dict[weakref.ref[Block], Lease] = {}
        self._lock = threading.Lock()
        self._is_at_work = False

    def know(self, block: Block, lease: Lease) -> None:
        """A block has a lease."""
        with self._lock:
            if not self._is_at_work:
                self._is_at_work = True
                _thread.start_new_thread(self._work, ())
            lease.key = weakref.ref(block, self._gone.put)
            self._leases[lease.key] = lease

    def forget(self, lease: Lease) -> None:
        """The lease is over."""
        with self._lock:
            if lease.key is not None:
                self._leases.pop(lease.key, None)

    def give_up(self, lease: Lease) -> None:
        """The lease is to be ended, unless that is under way."""
        self._gone.put(lease)

    def _work(self) -> None:
        threading.current_thread().name = "garterfossil reaper"
        while True:
            gone = self._gone.get()
            lease: Lease | None
            with self._lock:
                lease = gone if isinstance(gone, Lease) else self._leases.get(gone)
            if lease is not None:
                # A database that doesn't answer holds up this one alone.
                _thread.start_new_thread(lease.give_up, ())
            del gone, lease


REAPER = Reaper()


def _after_fork() -> None:
    """Its thread is the parent's, and so are the transactions."""
    global REAPER
    REAPER = Reaper()


os.register_at_fork(after_in_child=_after_fork)
