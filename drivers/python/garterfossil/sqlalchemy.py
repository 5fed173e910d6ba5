"""SQLAlchemy within global transactions: Sessions and Core, at a database of a transaction manager.

    bank, shop = create_engine(xa, 0), create_engine(xa, 1)
    Session = sessionmaker(binds={Account: bank, Order: shop})

    with xa.transaction():
        with Session.begin() as session:
            session.add(Order(...))

What is committed in a block, by a Session or by a Connection, is committed as the block ends, at all databases or at none. What is
rolled back there is taken back at once, by a savepoint."""

from __future__ import annotations

import functools
import threading
import weakref
from collections.abc import Callable
from typing import Any

import sqlalchemy
import sqlalchemy.event
from sqlalchemy import orm
from sqlalchemy.dialects import registry
from sqlalchemy.engine import make_url
from sqlalchemy.engine.default import DefaultDialect
from sqlalchemy.pool import NullPool

from . import current
from .adapters.base import Connection as DriverConnection
from .branch import Branch
from .errors import EndRefused, SetupError, TransactionOver, XaError
from .manager import TransactionManager
from .transaction import Transaction


def create_engine(manager: TransactionManager, database: int | str = 0, **options: Any) -> sqlalchemy.engine.Engine:
    """An Engine at a database of the manager, by the database's place or name. Its connections are those of the transaction in
    whose block the thread is, so it gives none outside of a block (TransactionOver). `options` are those of
    sqlalchemy.create_engine, except what belongs to the pool."""
    dialect = manager.database(database).SQLALCHEMY
    if dialect is None:
        raise SetupError(f"SQLAlchemy has no dialect for {manager.database(database)!r}: the adapter's SQLALCHEMY names none")

    def connect() -> _Connection:
        return _Connection(_Works.of(manager.require_current(), database))

    engine: sqlalchemy.engine.Engine = sqlalchemy.create_engine(
        _Entry.url_of(dialect), creator=connect, poolclass=NullPool, pool_reset_on_return=None, **options
    )
    _SESSIONS.add_engine(engine, manager)
    return engine


class _Sessions:
    """The Sessions that have begun something, each with who did that and in which transactions: what one of them hasn't flushed as the
    block ends was never sent, although the program takes it for done."""

    def __init__(self) -> None:
        self._lock = threading.Lock()
        self._engines: weakref.WeakKeyDictionary[sqlalchemy.engine.Engine, TransactionManager] = weakref.WeakKeyDictionary()
        self._managers: weakref.WeakSet[TransactionManager] = weakref.WeakSet()
        self._began: weakref.WeakKeyDictionary[orm.Session, set[object]] = weakref.WeakKeyDictionary()
        sqlalchemy.event.listen(orm.Session, "after_transaction_create", self._note)

    def add_engine(self, engine: sqlalchemy.engine.Engine, manager: TransactionManager) -> None:
        """An engine is the manager's: before each commit its Sessions are looked at."""
        with self._lock:
            self._engines[engine] = manager
            if manager in self._managers:
                return
            self._managers.add(manager)
        manager.before_each_commit(self._require_flushed)

    def _note(self, session: orm.Session, _: Any) -> None:
        with self._lock:
            managers = list(self._managers)
            began = self._began.setdefault(session, set())
            began.clear()
            began.add(current.owner())
            for manager in managers:
                entry = current.innermost(manager)
                if entry is not None:
                    began.add(entry.transaction.gtrid)

    def _require_flushed(self, transaction: Transaction) -> None:
        with self._lock:
            mine = {transaction.gtrid, current.owner()}
            sessions = [session for session, began in self._began.items() if began & mine]
        for session in sessions:
            for one in (*session.new, *session.dirty, *session.deleted):
                if self._is_here(session, one):
                    raise XaError(f"a Session of SQLAlchemy has a {type(one).__name__} that it never flushed: commit it, or close it")

    def _is_here(self, session: orm.Session, one: object) -> bool:
        """Whether an object is written by an engine of a manager."""
        try:
            bind = session.get_bind(sqlalchemy.inspect(one).mapper)
        except sqlalchemy.exc.SQLAlchemyError:
            return False
        return bind.engine in self._engines


_SESSIONS = _Sessions()


class _Work:
    """What a connection of SQLAlchemy does between two of its ends, after a savepoint of its own."""

    def __init__(self, name: str):
        self.name = name
        self.is_over = False


class _Works:
    """The works in a branch, in the order in which they began. A work that is taken back takes back all that came after it."""

    _of: weakref.WeakKeyDictionary[Branch, _Works] = weakref.WeakKeyDictionary()

    def __init__(self, transaction: Transaction, branch: Branch):
        self.branch = branch
        self._works: list[_Work] = []
        self._count = 0
        self._fault: str | None = None
        transaction.before_commit(self._require_all_over)

    @classmethod
    def of(cls, transaction: Transaction, database: int | str) -> _Works:
        """Those of the transaction's branch at a database."""
        branch = transaction[database]
        if branch not in cls._of:
            cls._of[branch] = cls(transaction, branch)
        return cls._of[branch]

    def begin(self) -> _Work:
        """A work begins."""
        self._count += 1
        work = _Work(f"garterfossil_{self._count}")
        self._do(f"SAVEPOINT {work.name}")
        self._works.append(work)
        return work

    def commit(self, work: _Work) -> None:
        """The work is to be committed with the transaction."""
        if not self.branch.is_active:
            raise TransactionOver("the transaction has ended before what is committed here")
        work.is_over = True
        if all(one.is_over for one in self._works):
            self._works.clear()

    def roll_back(self, work: _Work) -> None:
        """The work is taken back. After the end of the branch that is so, or too late."""
        work.is_over = True
        if not self.branch.is_active:
            return
        if self._works[-1] is not work:
            self._fault = f"{self._where}: what was rolled back began before other work, so that it can't be taken back alone"
            return
        self._works.pop()
        connection = self.branch._connection
        # Where a failed statement can't be taken back, the whole transaction will be rolled back; and after a deadlock MariaDB has no
        # savepoint any more.
        if connection.fault is None or connection.TAKES_BACK:
            self._do(f"ROLLBACK TO SAVEPOINT {work.name}")

    @property
    def _where(self) -> str:
        return self.branch._line.rm.label

    def _require_all_over(self) -> None:
        """A block that ends before a Session in it is committed isn't right: SQLAlchemy would take the Session's work back."""
        if self._fault is not None:
            raise XaError(self._fault)
        if any(not work.is_over for work in self._works):
            raise XaError(f"{self._where}: a Session or Connection of SQLAlchemy isn't committed, nor rolled back or closed")

    def _do(self, statement: str) -> None:
        cursor = self.branch.cursor()
        try:
            cursor.execute(statement)
        finally:
            cursor.close()


class _Connection:
    """What SQLAlchemy takes for a connection of the module: that of the branch, except for its ends."""

    def __init__(self, works: _Works):
        self._works = works
        self._work: _Work | None = None

    def cursor(self, *words: Any, **options: Any) -> Any:
        if self._work is None:
            self._work = self._works.begin()
        return self._works.branch.cursor(*words, **options)

    def commit(self) -> None:
        work, self._work = self._work, None
        if work is not None:
            self._works.commit(work)

    def rollback(self) -> None:
        work, self._work = self._work, None
        if work is not None:
            self._works.roll_back(work)

    def close(self) -> None:
        self.rollback()

    @property
    def inner(self) -> DriverConnection:
        """The driver's connection, with the module's own in it: SQLAlchemy sets that up."""
        return self._works.branch._connection

    def __getattr__(self, name: str) -> Any:
        return getattr(self._works.branch.connection, name)


def _set_up_once(set_up: Callable[[Any], None], done: weakref.WeakSet[DriverConnection], connection: _Connection) -> None:
    """Sets the module's connection up, which serves many transactions, unless that was done."""
    if connection.inner not in done:
        set_up(connection.inner.link)
        done.add(connection.inner)


class _WithinBranches:
    """What is other in the dialects: a connection is set up once, and the transaction's ends aren't SQLAlchemy's."""

    _is_set_up = True

    def on_connect(self) -> Callable[[Any], None] | None:
        set_up: Callable[[Any], None] | None = super().on_connect()  # type: ignore[misc]
        if set_up is None:
            return None
        return functools.partial(_set_up_once, set_up, weakref.WeakSet())

    def initialize(self, connection: Any) -> None:
        """Asks the database for what the dialect has to know of it, which psycopg does on its own connection."""
        self._is_set_up = False
        super().initialize(connection)  # type: ignore[misc]
        self._is_set_up = True

    def get_driver_connection(self, connection: Any) -> Any:
        """To programs the branch's connection is that of the driver, too: the module's own could be committed."""
        return connection if self._is_set_up else connection.inner.link

    def set_isolation_level(self, *_: Any) -> None:
        raise EndRefused("the isolation level is the transaction's: manager.transaction(isolation=..)")

    def reset_isolation_level(self, *_: Any) -> None:
        """It was never set."""

    def do_begin_twophase(self, *_: Any) -> None:
        raise EndRefused("the transaction is of two phases already: leave twophase away")


class _Entry(DefaultDialect):
    """What SQLAlchemy finds under the name of a dialect within branches: it leads to that dialect."""

    _dialects: dict[str, type[Any]] = {}

    @classmethod
    def get_dialect_cls(cls, url: Any) -> type[Any]:
        """The dialect of a url."""
        return cls._dialects[url.drivername]

    @classmethod
    def url_of(cls, name: str) -> str:
        """The url of SQLAlchemy's own dialect of this name, within branches."""
        own = f"garterfossil+{name.replace('+', '_')}"
        if own not in cls._dialects:
            dialect = make_url(f"{name}://").get_dialect()
            cls._dialects[own] = type(f"{dialect.__name__}_within_branches", (_WithinBranches, dialect), {"supports_statement_cache": True})
            registry.register(own.replace("+", "."), __name__, "_Entry")
        return f"{own}://"

