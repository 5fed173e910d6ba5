"""A database of SQLite as a stand-in for one that takes part in transactions: a prepared branch is a transaction that is held open.
It lets SQLAlchemy be tried without a server."""

import sqlite3

from garterfossil.adapters.base import Connection, Database, Place, Result
from garterfossil.codes import Code
from garterfossil.statements import POSTGRESQL


class SqliteDatabase(Database):
    SQLALCHEMY = "sqlite+pysqlite"

    def __init__(self, path):
        self.path = path

    def connect(self, place=Place()):
        return SqliteConnection(sqlite3.connect(self.path, isolation_level=None, check_same_thread=False), place)

    def end_connections(self, kept, place=Place()):
        return 0


class SqliteConnection(Connection):
    TEXTS = POSTGRESQL
    TAKES_BACK = True
    SHOWN = frozenset(["create_function", "total_changes", "in_transaction", "isolation_level"])

    def __init__(self, link, place):
        super().__init__(link, place)
        self.number = id(link)

    def _close(self):
        self.link.close()

    def run(self, statement, parameters=()):
        cursor = self.link.execute(statement, parameters)
        return Result(cursor.fetchall(), cursor.rowcount)

    def _work(self, statement, parameters):
        return self.run(statement, parameters)

    def _vote_of(self, error):
        """(What is no broken constraint stands for a deadlock.)"""
        if not isinstance(error, sqlite3.Error):
            return None
        return Code.RBINTEGRITY if isinstance(error, sqlite3.IntegrityError) else Code.RBDEADLOCK

    @property
    def fault(self):
        """As with PostgreSQL, a rollback to a savepoint takes a failed statement back."""
        return None

    def _start(self, xid):
        self.run("BEGIN")
        return Code.OK

    def _end(self, xid):
        pass

    def _prepare(self, xid):
        return Code.OK

    def _commit_in_one_phase(self, xid):
        self.run("COMMIT")
        return Code.OK

    def _roll_back(self, xid):
        self.run("ROLLBACK")

    def _commit_prepared(self, xid):
        self.run("COMMIT")
        return Code.OK

    def _roll_back_prepared(self, xid):
        self.run("ROLLBACK")
        return Code.OK

    def _listed(self):
        return []
