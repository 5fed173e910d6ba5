"""A mirror's database, over SQLite, of which a test says when it is away."""

import os
import sqlite3
import tempfile
import time

from garterfossil.adapters.base import Connection, Database, Place, Result
from garterfossil.errors import ConnectionLost
from garterfossil.statements import POSTGRESQL


class FakeMirror(Database):
    """Keeps its rows in a file. What is done is in `statements`."""

    SHARED = ""

    def __init__(self, folder=None):
        self.path = os.path.join(folder or tempfile.mkdtemp(), "mirror.db")
        self.is_up = True
        #: How long a connection takes, and how often one was asked for.
        self.seconds, self.asked = 0.0, 0
        #: The first word of a statement that is done, and whose answer is lost.
        self.loses = None
        #: What the next statement that begins so is refused with.
        self.refuses = {}
        #: A warning beside the next answer.
        self.warns = None
        self.statements = []

    def connect(self, place=Place()):
        self.asked += 1
        time.sleep(self.seconds)
        if not self.is_up:
            raise ConnectionLost("the mirror is down")
        return FakeMirrorConnection(self, place)

    def end_connections(self, kept, place=Place()):
        return 0

    def rows(self, columns, table):
        it = sqlite3.connect(self.path)
        try:
            return it.execute(f"SELECT {columns} FROM {table} ORDER BY 1").fetchall()
        finally:
            it.close()

    def decided(self):
        """The transactions that are in it."""
        return [gtrid for gtrid, in self.rows("gtrid", "garterfossil_decision")]


class FakeMirrorConnection(Connection):
    TEXTS = POSTGRESQL
    number = 1

    def __init__(self, database, place):
        self.database = database
        super().__init__(sqlite3.connect(database.path, isolation_level=None, check_same_thread=False), place)

    def _close(self):
        self.link.close()

    def run(self, statement, parameters=()):
        if not self.database.is_up:
            raise ConnectionLost("the mirror is down")
        self.database.statements.append(statement)
        for begin in [begin for begin in self.database.refuses if statement.startswith(begin)]:
            raise self.database.refuses.pop(begin)
        done = self.link.execute(statement.replace("%s", "?").replace("FOR UPDATE", ""), parameters)
        if statement.split(" ")[0] == self.database.loses:
            self.database.loses = None
            raise ConnectionLost("the answer is lost")
        return Result(done.fetchall(), done.rowcount)

    def warnings(self):
        said, self.database.warns = self.database.warns, None
        return [said] if said else []

    def _none(self, *_):
        raise NotImplementedError

    _work = _start = _end = _prepare = _commit_in_one_phase = _roll_back = _commit_prepared = _roll_back_prepared = _listed = _none
