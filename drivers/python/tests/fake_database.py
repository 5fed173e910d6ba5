"""A database in memory, of which a test says what goes wrong."""

import socket

from garterfossil.adapters.base import Connection, Database, Place, Result
from garterfossil.codes import Code
from garterfossil.errors import ConnectionLost
from garterfossil.statements import POSTGRESQL


class FakeDatabase(Database):
    """Keeps what was written as a list of statements. The statement `wrong` fails."""

    def __init__(self):
        self.written = []
        self.prepared = {}
        self.is_up = True
        #: What the next of some calls is answered, by the name of what makes it: a code, or an exception to raise. With
        #: `lost` the call is done, and its answer is lost.
        self.next = {}
        #: What is called before some calls, by the same names.
        self.before = {}
        self.calls = []
        self.connections = []
        #: Why nobody may have a connection.
        self.refuses = None
        #: How each branch was to run.
        self.modes = []
        #: What it warns of, or why it may lose what it votes for.
        self.worries = []
        #: What it calls itself.
        self.identity = None

    def connect(self, place=Place()):
        if self.refuses:
            raise self.refuses
        if not self.is_up:
            raise ConnectionLost("the database is down")
        connection = FakeConnection(self, place)
        self.connections.append(connection)
        connection.number = len(self.connections)
        return connection

    def end_connections(self, kept, place=Place()):
        if not self.is_up:
            raise ConnectionLost("the database is down")
        strays = [it for it in self.connections if not it.is_lost and same(it.place, place) and it.number not in kept]
        for connection in strays:
            connection.is_lost = True
        return len(strays)

    def called(self, name):
        """A test may look on."""

    def crash(self):
        self.is_up = False
        for connection in self.connections:
            connection.is_lost = True


def same(one, other):
    return (one.manager, one.number) == (other.manager, other.number)


class WrongStatement(Exception):
    """What the database's own module would raise."""


class FakeLink:
    """The module's own connection, and its cursors."""

    Error = WrongStatement
    autocommit = True
    encoding = "UTF8"

    def __init__(self, connection):
        self.connection = connection
        self.description, self.rowcount, self.rows, self.arraysize = None, -1, [], 1

    def cursor(self):
        return FakeLink(self.connection)

    def execute(self, statement, parameters=()):
        self.rowcount = self.connection.written(statement).rowcount
        self.description, self.rows = [("statement",)], [(statement,)]

    def executemany(self, statement, rows):
        for row in rows:
            self.execute(statement % row)

    def stream(self, statement):
        """Is done as its rows are asked for, and gives one for each of three."""
        for _ in range(3):
            self.execute(statement)
            yield self.rows[0]

    def fetchone(self):
        return self.rows.pop() if self.rows else None

    def __iter__(self):
        return iter(self.fetchone, None)

    def commit(self):
        self.connection.database.calls.append("commit of the module")

    rollback = close = commit


class FakeConnection(Connection):
    TEXTS = POSTGRESQL
    SHOWN = frozenset(["encoding"])

    def __init__(self, database, place):
        self.socket, self.server = socket.socketpair()
        super().__init__(FakeLink(self), place)
        self.database = database
        self.is_lost = self.is_silent = False
        self.statements = []

    def _descriptor(self):
        return self.socket.fileno()

    def see_durable(self):
        if isinstance(self.database.worries, Exception):
            raise self.database.worries
        return self.database.worries

    def identity(self, kept):
        return self.database.identity

    def hang_up(self):
        """The database ends the connection by itself."""
        self.server.close()
        self.is_lost = True

    def _close(self):
        self.is_lost = True
        self.socket.close()
        self.server.close()

    def __del__(self):
        # One that a test has lost is never closed otherwise.
        self.socket.close()
        self.server.close()

    def told(self, name, xid, done=lambda: None):
        """Does a call, unless the test has something else for it."""
        if self.is_silent:
            # Until somebody ends the connection from beside.
            self.socket.recv(1)
            self.is_lost = True
        if self.is_lost:
            raise ConnectionLost("the connection is gone")
        self.database.called(name)
        self.database.calls.append(f"{name} {xid}")
        self.database.before.get(name, lambda: None)()
        wanted = self.database.next.pop(name, Code.OK)
        if wanted == "lost":
            done()
            self.is_lost = True
            raise ConnectionLost("the answer is lost")
        if isinstance(wanted, Exception):
            raise wanted
        if wanted is Code.OK:
            done()
        return wanted

    def run(self, statement, parameters=()):
        raise NotImplementedError

    def _work(self, statement, parameters):
        return self.written(statement)

    def written(self, statement):
        self.told("work", statement)
        if statement == "wrong":
            raise WrongStatement(statement)
        self.statements.append(statement)
        return Result([], 1)

    def _vote_of(self, error):
        return Code.RBINTEGRITY if isinstance(error, WrongStatement) else None

    def _start(self, xid):
        self.statements = []
        self.database.modes.append(self.options.modes)
        return self.told("start", xid)

    def _end(self, xid):
        self.told("end", xid)

    def _prepare(self, xid):
        return self.told("prepare", xid, lambda: self.database.prepared.update({xid: self.statements}))

    def _commit_in_one_phase(self, xid):
        return self.told("commit_in_one_phase", xid, lambda: self.database.written.extend(self.statements))

    def _roll_back(self, xid):
        self.told("roll_back", xid)

    def _commit_prepared(self, xid):
        return self._end_prepared("commit_prepared", xid, self.database.written.extend)

    def _roll_back_prepared(self, xid):
        return self._end_prepared("roll_back_prepared", xid, lambda work: None)

    def _end_prepared(self, name, xid, done):
        is_listed = xid in self.database.prepared
        code = self.told(name, xid, lambda: done(self.database.prepared.pop(xid, [])))
        return code if is_listed else Code.NOTA

    def _listed(self):
        self.told("listed", "")
        return list(self.database.prepared)
