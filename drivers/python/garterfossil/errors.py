"""What is raised by the driver."""

from __future__ import annotations


from .codes import Code

#: Reasons for a rollback that are of a moment.
PASSING = (Code.RBCOMMFAIL, Code.RBDEADLOCK, Code.RBTIMEOUT, Code.RBTRANSIENT)


class XaError(Exception):
    """Any error of the driver."""


class RolledBack(XaError):
    """The transaction was rolled back at each database. A branch at a database that can't be reached now is rolled back by the
    next recovery there. If a database was the reason, its own error is the `__cause__`.

    `is_worth_trying_again` says whether the same work may go well the next time."""

    def __init__(self, text: str, database: int | None = None, code: Code | None = None):
        super().__init__(text)
        #: The number of the database that refused it, if one did.
        self.database = database
        #: Why that one did: one of XA's codes from RBROLLBACK to RBTRANSIENT.
        self.code = code

    @property
    def is_worth_trying_again(self) -> bool:
        """Whether the reason is of a moment: a deadlock, a serialization that failed, a lock that was waited for too long, a
        connection that was lost. A broken constraint is none, and neither is a reason that the database gave no code for."""
        if self.code is not None:
            return self.code in PASSING
        return isinstance(self.__cause__, (ConnectionLost, CoordinatorGone))


class OutcomeUnknown(XaError):
    """Nobody could tell whether the transaction was committed: the coordinator ended while it decided, or a connection was
    lost during a commit in one phase. The databases agree all the same: a transaction over several of them is ended by the
    recovery, everywhere alike."""

    def __init__(self, text: str, gtrid: str = ""):
        super().__init__(text)
        #: The transaction: `TransactionManager.outcome` says how it ended, once that is known.
        self.gtrid = gtrid


class HeuristicEnd(XaError):
    """A database had ended a branch of the transaction by itself, before it was told how. The coordinator's log has a
    record of it (`xatm log PATH`), if the database said so itself."""


class TransactionOver(XaError):
    """The transaction is over, or the branch is, so there is nothing left to work in. Nothing was done. A branch, a cursor or a
    connection that is kept after its block raises it."""


class EndRefused(XaError):
    """A statement or a method would have ended the branch's transaction, or begun one, which is for the end of the block alone.
    Nothing was sent, and the transaction stands as before."""


class ConnectionLost(XaError):
    """A connection to a database is lost, or there is none: nobody knows whether the call that was under way was done."""


class Unanswered(XaError):
    """A database has no answer to a call now, as with XA's XAER_RMERR and XAER_RMFAIL. Nothing was done."""


class SetupError(XaError):
    """A database isn't set up for transactions of this kind: the message says what to change."""


class Overdue(XaError):
    """No thread of the coordinator came free in time."""


class TimedOut(XaError):
    """The transaction has outlasted its `timeout`, and can only be rolled back."""


class NestedTransaction(XaError):
    """The thread has a transaction already, whose block isn't over. Nothing was begun."""


class CoordinatorGone(XaError):
    """The coordinator has ended, or its log failed. A transaction that was not decided is rolled back by the recovery."""

    #: The status that its process ended with.
    status: int | None = None


class LogInUse(CoordinatorGone):
    """Another program has the log: one at a time may use it."""


class NotNow(Overdue):
    """A transaction can't begin yet: the log is new, and the coordinator has yet to look at each database."""
