"""A global transaction, as a program works with it, and its branches."""

from __future__ import annotations

import functools
import os
import threading
import time
from collections.abc import Callable
from typing import TYPE_CHECKING

from .adapters.base import Options
from .aside import aside
from .branch import Branch
from .codes import Code
from .errors import (
    PASSING,
    ConnectionLost,
    HeuristicEnd,
    OutcomeUnknown,
    RolledBack,
    TimedOut,
    TransactionOver,
    XaError,
)
from .hands import Hands, Part, Told
from .logger import log
from .outcomes import Outcome
from .recovery import stop
from .threads import Thread

if TYPE_CHECKING:
    from .session import Session


#: How a branch may have ended otherwise than its transaction: by its database, or, if that keeps no such ends, by somebody.
HOW = ("its database has ended it by itself", "somebody has ended it by hand, one way or the other")


class Transaction:
    """A global transaction: either all its branches are committed or all are rolled back.

    `t[0]` is its branch at the first of the databases, and `t["bank"]` at the one of that name. It begins as it is first used.
    In a `with` block the transaction is committed at the end, and rolled back if an exception leaves the block."""

    def __init__(
        self, session: Session, thread: Thread, gtrid: str, options: Options = Options(), timeout: float | None = None
    ):
        #: Its name: 32 hexadecimal digits.
        self.gtrid = gtrid
        self.outcome = Outcome.OPEN
        #: Whether somebody had ended a branch of it by hand, against the outcome.
        self.is_heuristic = False
        #: The moment of the monotonic clock when it began.
        self.begun = time.monotonic()
        self._options = options
        self._timeout = timeout
        self._limit = None if timeout is None else self.begun + timeout
        self._session = session
        self._thread = thread
        self._process = os.getpid()
        # What begins and ends branches, one after the other.
        self._steps = threading.RLock()
        #: Whether its thread is given back, so that nobody is in its block any more.
        self.is_let_go = False
        self._hands = Hands(session, thread, gtrid)
        self._looks: list[Callable[[], None]] = []
        # Why it can only be rolled back, where that isn't a branch's own matter.
        self._fault: RolledBack | None = None
        #: Why it was rolled back, as far as that has codes.
        self.codes: set[Code] = set()

    def __repr__(self) -> str:
        return f"<Transaction {self.gtrid}, {self.outcome.value}, at {len(self._hands.parts)} databases>"

    def __getitem__(self, key: int | str) -> Branch:
        """The branch at a database: by its place among those of the manager, from 0, or by its name. Raises TransactionOver
        after the end, and IndexError or KeyError if there is no such database."""
        self._require_open()
        self._require_time()
        number = self._session.databases.number_of(key)
        if number not in self._hands.parts:
            aside(functools.partial(self._see_branch, number))
        return self._hands.parts[number].branch

    def before_commit(self, look: Callable[[], None]) -> None:
        """Has a function called before the transaction is committed. If it raises an XaError, the transaction is rolled back."""
        self._looks.append(look)

    def _see_branch(self, number: int) -> None:
        """Sees that there is a branch at a database."""
        with self._steps:
            self._require_open()
            if number not in self._hands.parts:
                self._begin_branch(number)

    def _begin_branch(self, number: int) -> None:
        try:
            part = Part(*self._session.part(self._thread, self.gtrid, number), self._options, self._limit)
            # From now on it has to be ended, however far its beginning comes.
            self._hands.parts[number] = part
            part.start()
            self._hands.join()
        except BaseException as error:
            self._fault = RolledBack(f"no branch at {self._session.databases.label(number)}: {error}")
            self._fault.__cause__ = error
            raise

    def __enter__(self) -> Transaction:
        return self

    def __exit__(self, _: object, error: BaseException | None, __: object) -> None:
        if error is None:
            self.look_before_commit()
        aside(functools.partial(self.leave, error))

    def leave(self, error: BaseException | None) -> None:
        """Ends it, unless that was done: by a commit, or if there is an exception, by a rollback."""
        with self._steps:
            if self.outcome is not Outcome.OPEN:
                return
            if error is None:
                self._commit()
            else:
                self._roll_back()

    # ** its end

    def commit(self) -> None:
        """Commits it. Once this returns the decision is in the log, and whatever ends then, each branch is committed. With
        one branch the database decides, and the log has nothing of it. Raises RolledBack, OutcomeUnknown or HeuristicEnd."""
        self._require_open()
        self.look_before_commit()
        aside(self._commit)

    def look_before_commit(self) -> None:
        """Calls the functions that are to look before the commit, unless it is over. Raises RolledBack for the XaError of one of them."""
        if self.outcome is not Outcome.OPEN:
            return
        try:
            for look in self._looks:
                look()
        except XaError as error:
            aside(self.roll_back)
            raise RolledBack(str(error)) from error

    def _commit(self) -> None:
        with self._steps:
            self._require_open()
            refusal = self._refusal()
            if refusal is not None:
                self._roll_back()
                raise self._with_odd(refusal)
            try:
                told = self._hands.commit()
            except BaseException:
                self.outcome = self._hands.fate or Outcome.UNKNOWN
                raise
            self._note_end(told)
            self._raise_unless_committed(told)

    def _raise_unless_committed(self, told: Told) -> None:
        if told.outcome is Outcome.UNKNOWN:
            errors = [told.error, *(part.error for part in self._hands.parts.values())]
            reason = next((error for error in errors if error is not None), None)
            raise OutcomeUnknown(f"{self.gtrid}: {reason or 'nobody knows how it ended'}", self.gtrid) from reason
        if told.outcome is Outcome.ROLLED_BACK:
            raise self._with_odd(self._no(told))
        if self.is_heuristic:
            raise HeuristicEnd(self._odd("committed"))

    def rollback(self) -> None:
        """Rolls it back."""
        self._require_open()
        aside(self.roll_back)

    def roll_back(self) -> None:
        """The same, unless it is over. Done by who isn't interrupted."""
        with self._steps:
            if self.outcome is Outcome.OPEN:
                self._roll_back()

    def _require_open(self) -> None:
        if os.getpid() != self._process:
            raise TransactionOver(f"the transaction is that of process {self._process}, of which this one was forked off")
        if self.outcome is not Outcome.OPEN:
            raise TransactionOver(f"the transaction is over: {self.outcome.value}")

    @property
    def _is_late(self) -> bool:
        return self._limit is not None and time.monotonic() >= self._limit

    def _require_time(self) -> None:
        if self._is_late:
            raise TimedOut(f"the transaction has outlasted its {self._timeout} seconds")

    @property
    def is_worth_trying_again(self) -> bool:
        """Whether it was rolled back, and for a reason of a moment, as a deadlock or a connection that was lost: then the same work may
        go well the next time."""
        return self.outcome is Outcome.ROLLED_BACK and bool(self.codes) and all(code in PASSING for code in self.codes)

    def was_left_for_a_moment(self, error: BaseException | None) -> bool:
        """Whether an exception that left the block is a database's own, of a reason that is of a moment, or comes from one. (At
        PostgreSQL a savepoint may have taken its statement back, so that the branch had no fault.)"""
        if self.outcome is not Outcome.ROLLED_BACK:
            return False
        while error is not None:
            vote = error if isinstance(error, Exception) else None
            if vote is not None and any(part.connection._vote_of(vote) in PASSING for part in self._hands.parts.values()):
                return True
            error = error.__cause__
        return False

    # ** why it ends

    def _refusal(self) -> RolledBack | None:
        """Why it can only be rolled back, if so."""
        if self._fault is not None:
            return self._fault
        if self._is_late:
            return RolledBack(f"the transaction has outlasted its {self._timeout} seconds", code=Code.RBTIMEOUT)
        for part in self._hands.parts.values():
            code, label = self._code_of(part), part.line.rm.label
            if code is not None:
                text = f"the connection to {label} was lost" if part.is_lost else f"work at {label} failed: {code.name}"
                return self._reason(part, text, code)
        return None

    def _code_of(self, part: Part) -> Code | None:
        """Why a branch can only be rolled back, if so."""
        if part.is_lost:
            return Code.RBPROTO if part.connection.is_ended_by_statement else Code.RBCOMMFAIL
        return part.connection.fault

    def _reason(self, part: Part, text: str, code: Code) -> RolledBack:
        """What is raised if a branch is the reason: what the database said is its cause."""
        reason = part.connection.reason or part.error
        said = "" if reason is None else f": {(str(reason).strip().splitlines() or [type(reason).__name__])[0]}"
        error = RolledBack(f"{text}{said}", database=part.line.rm.number, code=code)
        error.__cause__ = reason
        return error

    def _no(self, told: Told) -> RolledBack:
        """What is raised if the coordinator tells that it is rolled back."""
        if told.rm is None or told.code is None:
            error = RolledBack(str(told.error or f"{self.gtrid} is rolled back"))
            error.__cause__ = told.error
            return error
        part = self._hands.parts[told.rm]
        label = part.line.rm.label
        text = f"{label} voted {told.code.name}" if part.error is None else f"the connection to {label} was lost"
        return self._reason(part, text, told.code)

    # ** how it ended

    def _roll_back(self) -> None:
        """Ends each branch by a rollback. Nothing of it is in the log."""
        self.outcome = Outcome.ROLLED_BACK
        parts = list(self._hands.parts.values())
        self.codes = {code for code in map(self._code_of, parts) if code is not None}
        if self._fault is not None and isinstance(self._fault.__cause__, ConnectionLost):
            self.codes.add(Code.RBCOMMFAIL)
        if self._is_late:
            self.codes.add(Code.RBTIMEOUT)
        self._note_end(self._hands.roll_back())

    def _note_end(self, told: Told) -> None:
        """Notes how it ended, and whether a branch has ended otherwise, or may have."""
        self.outcome = told.outcome
        if told.error is not None:
            log.warning("%s, as far as is known: %s: %s", self.gtrid, self.outcome.value, told.error)
        if told.code is not None:
            self.codes.add(told.code)
        if self._session.coordinator.is_gone and told.outcome is Outcome.ROLLED_BACK:
            self.codes.add(Code.RBCOMMFAIL)
        for part in self._hands.parts.values():
            if part.connection.is_ended_by_statement:
                part.oddity = f"{part.xid}: a statement of the program has ended it, and what it had done may stand"
            if part.connection.is_double:
                stop(self._session, f"{part.line.rm.label} has a branch {part.xid} already, of a copy of this log that is at work")
        for rm, how in told.mixed.items():
            self._hands.parts[rm].oddity = f"{self._hands.parts[rm].xid}: {how.name}, {HOW[how is Code.HEURHAZ]}"
        self.is_heuristic = any(part.oddity for part in self._hands.parts.values())
        if self.is_heuristic:
            log.error("%s: look at what each database holds, and do by hand what is missing", self._odd(told.outcome.value))

    def _with_odd(self, error: RolledBack) -> RolledBack:
        if self.is_heuristic:
            error.args = (f"{error}; {self._odd('rolled back')}",)
        return error

    def _odd(self, how: str) -> str:
        odd = [f"{part.line.rm.label}: {part.oddity}" for part in self._hands.parts.values() if part.oddity]
        return f"{self.gtrid} is {how}, but not everywhere: {'; '.join(odd)}"
