"""A branch of a transaction, as a program works with it: statements, cursors, and a connection of the database's own module."""

from __future__ import annotations

import contextlib
import os
import time
from collections.abc import Callable, Generator, Iterator
from typing import TYPE_CHECKING, Any

from .adapters.base import Connection, Parameters, Result
from .aside import aside, is_interrupt
from .errors import ConnectionLost, EndRefused, HeuristicEnd, TimedOut, TransactionOver
from .xid import Xid

if TYPE_CHECKING:
    from .threads import Line

#: What a connection of a module has that ends a transaction, begins one, or goes round what looks at statements.
REFUSED = frozenset(
    "autocommit begin cancel change_user close commit kill ping query reset rollback select_db set_isolation_level set_session"
    " tpc_begin tpc_commit tpc_prepare tpc_recover tpc_rollback".split()
)
#: Methods of a module's cursor whose first argument is the text of a statement.
WITH_TEXT = frozenset("copy copy_expert execute executemany stream".split())
END = object()


class Branch:
    """The part of a transaction at one database, as `t[0]` gives it.

    It lives as long as its transaction: kept longer, all that it gave out raises TransactionOver and does nothing. A statement
    that fails is raised as the database's module raises it, and then the transaction can only be rolled back. ConnectionLost is
    raised if the connection is lost: then that, too. EndRefused is raised for a statement that would end the transaction; it
    isn't sent."""

    def __init__(self, line: Line, connection: Connection, xid: Xid):
        #: XA's identifier of the branch.
        self.xid = xid
        self._line = line
        self._connection = connection
        self._is_over = False
        self._savepoints = 0
        self._process = os.getpid()

    def __repr__(self) -> str:
        return f"<Branch {self.xid} at {self._line.rm.label}, {'active' if self.is_active else 'over'}>"

    @property
    def is_active(self) -> bool:
        """Whether statements can be done in it."""
        return not self._is_over and self._line.connection is self._connection and self._connection.is_active(self.xid)

    def execute(self, statement: str, parameters: Parameters = ()) -> Result:
        """Does a statement: its rows, as tuples, and how many rows it changed or found."""
        self._refuse_ends(statement)
        result: Result = self._work(lambda: self._connection._work(statement, parameters))
        return result

    def cursor(self, *words: Any, **options: Any) -> BranchCursor:
        """A cursor of the database's module, made with the arguments that the module takes."""
        return BranchCursor(self, self._work(lambda: self._connection.cursor(*words, **options)))

    @property
    def connection(self) -> BranchConnection:
        """The connection of the database's module, without what would end the transaction."""
        return BranchConnection(self)

    @contextlib.contextmanager
    def savepoint(self) -> Iterator[None]:
        """A `with` block of which all is taken back that it did here, if an exception leaves it, and nothing else. (At MariaDB a statement
        that failed still has the transaction rolled back.)"""
        self._savepoints += 1
        name = f"garterfossil_block_{self._savepoints}"
        self.execute(f"SAVEPOINT {name}")
        try:
            yield
        except BaseException:
            connection = self._connection
            # After a deadlock MariaDB has none any more.
            if self.is_active and (connection.fault is None or connection.TAKES_BACK):
                self.execute(f"ROLLBACK TO SAVEPOINT {name}")
            raise
        self.execute(f"RELEASE SAVEPOINT {name}")

    def _work(self, step: Callable[[], Any]) -> Any:
        if self._is_over:
            raise TransactionOver(f"the branch at {self._line.rm.label} is over")
        if os.getpid() != self._process:
            raise TransactionOver(f"the branch is that of process {self._process}, of which this one was forked off")
        if self._line.connection is not self._connection:
            raise ConnectionLost(f"the connection to {self._line.rm.label} was lost")
        if self._is_late:
            raise TimedOut("the transaction has outlasted its timeout")
        try:
            return self._connection.work(self.xid, step)
        except BaseException as error:
            # After an interrupt nobody knows what the connection would say next.
            is_unknown = isinstance(error, (ConnectionLost, HeuristicEnd)) or is_interrupt(error)
            if is_unknown and self._connection.is_active(self.xid) and self._line.connection is self._connection:
                aside(self._line.lose)
            if isinstance(error, ConnectionLost) and self._is_late:
                raise TimedOut(f"the transaction has outlasted its timeout in a statement: {error}") from error
            raise

    @property
    def _is_late(self) -> bool:
        limit = self._connection.limit
        return limit is not None and time.monotonic() >= limit

    def _refuse_ends(self, statement: Any) -> None:
        text = statement if type(statement) is str else self._connection.text_of(statement)
        if self._connection.TEXTS.refuse_ends(text):
            self._connection.is_changed = True


class BranchPart:
    """What works on a branch's connection, as a cursor of the database's module does, and what that gives, as psycopg's COPY and its
    streams of rows: each step of it needs the branch."""

    _branch: Branch
    _part: Any

    def __init__(self, branch: Branch, part: Any):
        object.__setattr__(self, "_branch", branch)
        object.__setattr__(self, "_part", part)

    def __getattr__(self, name: str) -> Any:
        if name.startswith("_") or name in ("connection", "cursor"):
            raise AttributeError(f"{name} of what works in a branch isn't given out")
        value = getattr(self._part, name)
        return self._guarded(name, value) if callable(value) else value

    def _guarded(self, name: str, method: Callable[..., Any]) -> Callable[..., Any]:
        def guarded(*words: Any, **options: Any) -> Any:
            if name in WITH_TEXT and words:
                self._branch._refuse_ends(words[0])
            given = self._branch._work(lambda: method(*words, **options))
            if given is self._part:
                return self
            return BranchPart(self._branch, given) if is_lazy(given) else given

        return guarded

    def __iter__(self) -> Iterator[Any]:
        steps = self._branch._work(lambda: iter(self._part))
        while True:
            step = self._branch._work(lambda: next(steps, END))
            if step is END:
                return
            yield step

    def __next__(self) -> Any:
        step = self._branch._work(lambda: next(self._part, END))
        if step is END:
            raise StopIteration
        return step

    def __enter__(self) -> BranchPart:
        return BranchPart(self._branch, self._branch._work(self._part.__enter__))

    def __exit__(self, *raised: Any) -> Any:
        return self._branch._work(lambda: self._part.__exit__(*raised))


class BranchCursor(BranchPart):
    """A cursor of the database's module in a branch: it has all that the module's has. What it read is its own, and may be looked at
    at any time; all else needs the branch."""

    def __repr__(self) -> str:
        return f"<cursor of {self._branch!r}>"

    @property
    def connection(self) -> BranchConnection:
        """The branch's connection."""
        return self._branch.connection

    def close(self) -> None:
        """Closes the cursor. After the branch nothing is left to close."""
        if self._branch.is_active:
            self._branch._work(self._part.close)

    def __setattr__(self, name: str, value: Any) -> None:
        self._branch._work(lambda: setattr(self._part, name, value))

    def __next__(self) -> Any:
        row = self.fetchone()
        if row is None:
            raise StopIteration
        return row

    def __enter__(self) -> BranchCursor:
        return self

    def __exit__(self, *_: object) -> None:
        self.close()


def is_lazy(given: Any) -> bool:
    """Whether what a cursor gave works on the connection after that."""
    return isinstance(given, Generator) or hasattr(given, "__enter__")


class BranchConnection:
    """The connection of a branch, for what wants one of the database's module (PEP 249): it gives cursors, and shows what the
    module's shows. Its `commit`, `rollback` and `close`, and all else that ends a transaction, raise EndRefused."""

    _branch: Branch

    def __init__(self, branch: Branch):
        object.__setattr__(self, "_branch", branch)

    def __repr__(self) -> str:
        return f"<connection of {self._branch!r}>"

    def cursor(self, *words: Any, **options: Any) -> BranchCursor:
        """A cursor, as `Branch.cursor` gives it."""
        return self._branch.cursor(*words, **options)

    def __getattr__(self, name: str) -> Any:
        if name in REFUSED:
            return self._refused(name)
        inner = self._branch._connection
        value = getattr(inner.link, name)
        is_kind_of_error = isinstance(value, type) and issubclass(value, Exception)
        if name not in inner.SHOWN and not is_kind_of_error:
            raise AttributeError(f"{name} of a branch's connection isn't given out")
        if not callable(value) or isinstance(value, type):
            return value
        return lambda *words, **options: self._branch._work(lambda: value(*words, **options))

    def __setattr__(self, name: str, value: Any) -> None:
        raise EndRefused(f"{name} of a branch's connection can't be set: the connection is the transaction manager's")

    def __enter__(self) -> BranchConnection:
        raise EndRefused("the block of a module's connection ends a transaction: use that of the transaction manager")

    def __exit__(self, *_: object) -> None:
        """There is no block."""

    def _refused(self, name: str) -> Any:
        value = getattr(self._branch._connection.link, name)
        if not callable(value):
            return value

        def refused(*words: Any, **options: Any) -> Any:
            raise EndRefused(f"{name} would end the branch's transaction or change it: the transaction ends with its block")

        return refused
