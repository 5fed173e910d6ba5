"""MariaDB as a resource manager, by PyMySQL. Tried with MariaDB 10.11."""

from __future__ import annotations

import contextlib
import math
import re
import uuid
from collections.abc import Callable, Collection, Iterable, Sequence
from typing import Any

from ..codes import Code
from ..errors import ConnectionLost, SetupError, Unanswered
from ..logger import log
from ..statements import MARIADB
from ..xid import Call, Xid
from .base import Asking, Connection, Database, Place, varied

#: Errors of MariaDB by their number.
NO_SUCH_BRANCH, IN_USE = 1397, 1440
CHECK_FAILED, NO_SUCH_CONNECTION = 4025, 1094
#: Why a branch is rolled back whose work or XA PREPARE failed so.
VOTES = {
    1205: Code.RBTIMEOUT,
    1213: Code.RBDEADLOCK,
    1402: Code.RBROLLBACK,
    1613: Code.RBTIMEOUT,
    1614: Code.RBDEADLOCK,
    CHECK_FAILED: Code.RBINTEGRITY,
}
NO_SUCH_TABLE = 1146
#: What it warns of as it rolls a branch back that wrote in a table without transactions.
KEPT = 1196
#: So many tables are named in a warning.
MOST_NAMED = 10
#: The view in a database that says which one it is, and how a server says that of itself.
IDENTITY = "garterfossil_identity"
SERVER = "the server"
#: What is told where the connection is lost, or was ended from another one.
LOST = frozenset([0, 1053, 1317, 1927, 2003, 2006, 2013, 2014, 2055])


#: How MariaDB refuses a user, a password, a database or a privilege.
REFUSALS = frozenset([1044, 1045, 1049, 1130, 1142, 1227, 1698])
#: A place has so many named locks at most: each of its connections holds one.
LOCKS = 512
#: What PyMySQL's own connection shows to a program.
SHOWN = frozenset(
    "affected_rows character_set_name charset cursorclass db encoding escape escape_string get_autocommit get_host_info"
    " get_proto_info get_server_info host insert_id literal open port server_status server_version show_warnings thread_id user"
    .split()
)


class MariaDB(Database):
    """A database of MariaDB, whose tables are InnoDB's.

    `parameters` are those of pymysql.connect. The driver knows its own connections by a named lock (GET_LOCK) that each of them
    holds. `lock_timeout` is for how many seconds a statement waits for a lock: no database sees a deadlock that goes over two of
    them. `on_connect` is called with each new connection of the module. `password` may be a function."""

    SQLALCHEMY = "mariadb+pymysql"
    SHARED = "LOCK IN SHARE MODE"
    EXACT_TEXT = "varchar({}) CHARACTER SET ascii COLLATE ascii_bin"

    def __init__(self, *, lock_timeout: int = 10, on_connect: Callable[[Any], None] | None = None, **parameters: Any):
        if "autocommit" in parameters:
            raise ValueError("autocommit is the driver's own: a branch begins and ends its transaction")
        self.on_connect = on_connect
        self._parameters = parameters
        self._lock_timeout = lock_timeout

    def __repr__(self) -> str:
        words = ("host", "port", "unix_socket", "user", "database", "db")
        return f"MariaDB({', '.join(f'{word}={value!r}' for word, value in self._parameters.items() if word in words)})"

    def connect(self, place: Place = Place()) -> MariaDBConnection:
        connection = self._connection(place)
        with connection.timed(place.patience):
            connection.take_lock()
            in_cluster = place.threads > 0 and connection.is_replicated()
        if in_cluster:
            connection.close()
            raise SetupError("a cluster of Galera has no XA transactions: it can be the mirror, and none of the databases")
        return connection

    def end_connections(self, kept: Collection[int], place: Place = Place()) -> int:
        return self._connection(place).end_others(kept)

    def by_hand(self, call: Call) -> str:
        return f"XA {call.verb} {text_in_xa(call.xid)};"

    def _connection(self, place: Place) -> MariaDBConnection:
        import pymysql

        link = self._link(pymysql, pymysql.err.MySQLError, place, ("connect_timeout", "read_timeout", "write_timeout"))
        for word in ("read_timeout", "write_timeout"):
            # They were for the greeting, which PyMySQL waits for by them alone. A statement may take longer.
            setattr(link, f"_{word}", self._parameters.get(word))
        return MariaDBConnection(link, self._lock_timeout, place)

    def _link(self, module: Any, kind_of_error: type[Exception], place: Place, waits: Iterable[str]) -> Any:
        """A connection of the module, of which these keywords say for how many seconds it waits."""
        seconds = max(2, math.ceil(place.patience))
        try:
            link = module.connect(autocommit=True, **{**dict.fromkeys(waits, seconds), **self.with_secrets(self._parameters)})
        except (kind_of_error, OSError) as error:
            if error.args and error.args[0] in REFUSALS:
                raise SetupError(str(error)) from error
            raise ConnectionLost(str(error)) from error
        self.set_up(link)
        return link


class MariaDBConnection(Connection):
    """A connection to MariaDB. While it lives, no other one can end a branch that it prepared: the answer to that is
    XAER_NOTA, although XA RECOVER lists the branch."""

    TEXTS = MARIADB
    SHOWN = SHOWN

    def __init__(self, link: Any, lock_timeout: int, place: Place = Place()):
        super().__init__(link, place)
        # The statement whose answer is yet to be read.
        self._sent: str | None = None
        self.number = link.thread_id()
        with self.timed(place.patience):
            self.run(f"SET innodb_lock_wait_timeout = {max(1, round(varied(lock_timeout)))}")

    @property
    def errors(self) -> Any:
        """The module's errors (PEP 249)."""
        import pymysql

        return pymysql.err

    def _plain_cursor(self) -> Any:
        import pymysql

        return self.link.cursor(pymysql.cursors.Cursor)

    def _descriptor(self) -> int | None:
        return int(self.link._sock.fileno())

    def _close(self) -> None:
        try:
            self.link.close()
        except (self.errors.MySQLError, OSError):
            pass

    # ** the connections of a place

    def take_lock(self) -> None:
        """Takes one of the place's named locks, by which the manager's next run knows the connection."""
        # Mostly the first is free. Only where it isn't, all are looked at.
        if self._takes(self.number % LOCKS):
            return
        if not any(self._takes(slot) for slot, holder in enumerate(self._holders()) if holder is None):
            raise ConnectionLost(f"all {LOCKS} locks of the manager's connections are taken at MariaDB")

    def _takes(self, slot: int) -> bool:
        return self.run(f"SELECT GET_LOCK('{self._lock_name(slot)}', 0)").rows == [(1,)]

    def _lock_name(self, slot: int) -> str:
        # MariaDB doesn't tell capital letters from others here.
        return f"garterfossil.{self.place.manager.encode('ascii').hex()}.{self.place.number}.{slot}"

    def _holders(self) -> Sequence[int | None]:
        """The number of the connection that holds each lock of the place."""
        return self.run("SELECT " + ", ".join(f"IS_USED_LOCK('{self._lock_name(slot)}')" for slot in range(LOCKS))).rows[0]

    def end_others(self, kept: Collection[int]) -> int:
        """Ends the connections of the place, except those that are kept, and itself: how many there were."""
        return self.end_those(
            lambda: {number for number in self._holders() if number is not None and number not in kept}, self._end_connection
        )

    def _end_connection(self, number: int) -> None:
        try:
            self.run(f"KILL CONNECTION {int(number)}")
        except self.errors.MySQLError as error:
            if error.args[0] != NO_SUCH_CONNECTION:
                raise SetupError(f"the user may not end connection {number}, which an earlier run of the manager left: {error}") from error

    # ** work

    def _vote_of(self, error: Exception) -> Code | None:
        """MariaDB would prepare what is left of the branch, except after a deadlock."""
        if not isinstance(error, self.errors.MySQLError) or not isinstance(error.args[0], int):
            # PyMySQL's own: the server knows nothing of it.
            return None
        return Code.RBINTEGRITY if isinstance(error, self.errors.IntegrityError) else VOTES.get(error.args[0], Code.RBOTHER)

    def _is_lost(self, error: Exception) -> bool:
        if isinstance(error, (self.errors.InterfaceError, OSError)):
            return True
        return isinstance(error, self.errors.MySQLError) and (not error.args or error.args[0] in LOST)

    # ** calls

    def _start(self, xid: Xid) -> Code:
        try:
            if self.options.modes:
                self.run("SET TRANSACTION " + ", ".join(self.options.modes))
            self._xa("START", xid)
        except self.errors.MySQLError as error:
            if error.args[0] == IN_USE:
                return Code.DUPID
            raise Unanswered(str(error)) from error
        return Code.OK

    def _end(self, xid: Xid) -> None:
        # A branch that was in a deadlock can only be rolled back, and says so here already; its vote
        # will tell. Of several statements in one text a later one may have failed, as is said only
        # now, in place of the answer: then it wasn't ended.
        for _ in range(2):
            try:
                self._xa("END", xid)
                return
            except self.errors.MySQLError as error:
                is_integrity = isinstance(error, self.errors.IntegrityError)
                self._fault = self._fault or (Code.RBINTEGRITY if is_integrity else VOTES.get(error.args[0], Code.RBROLLBACK))
                self.reason = self.reason or error

    def _prepare(self, xid: Xid) -> Code:
        vote = self._fault
        if vote is None:
            try:
                self._xa("PREPARE", xid)
                return Code.OK
            except self.errors.MySQLError as error:
                self.reason = error
                vote = VOTES.get(error.args[0], Code.RBOTHER)
        self._roll_back(xid)
        return vote

    def _commit_in_one_phase(self, xid: Xid) -> Code:
        if self._fault is not None:
            fault = self._fault
            self._roll_back(xid)
            return fault
        try:
            self._xa("COMMIT", xid, " ONE PHASE")
        except self.errors.MySQLError as error:
            if error.args[0] in VOTES:
                self.reason = error
                return VOTES[error.args[0]]
            raise Unanswered(str(error)) from error
        return Code.OK

    def _roll_back(self, xid: Xid) -> None:
        try:
            self._xa("ROLLBACK", xid)
            self._see_taken_back(xid)
        except self.errors.MySQLError as error:
            # A branch that MariaDB rolled back by itself isn't there any more, or says once more why.
            if error.args[0] != NO_SUCH_BRANCH and error.args[0] not in VOTES:
                raise Unanswered(str(error)) from error

    def _commit_prepared(self, xid: Xid) -> Code:
        return self._end_prepared("COMMIT", xid)

    def _roll_back_prepared(self, xid: Xid) -> Code:
        return self._end_prepared("ROLLBACK", xid)

    def _end_prepared(self, verb: str, xid: Xid) -> Code:
        """Ends a prepared branch. NOTA where there is none, as the list says too: MariaDB says it as well of a branch whose connection
        still lives. And it may say that it has rolled the branch back, as one that did nothing."""
        try:
            self._xa(verb, xid)
        except self.errors.MySQLError as error:
            number = error.args[0]
            if (number == NO_SUCH_BRANCH or number in VOTES) and xid not in self._listed():
                return VOTES.get(number, Code.NOTA)
            raise Unanswered(str(error)) from error
        if verb == "ROLLBACK":
            self._see_taken_back(xid)
        return Code.OK

    def _see_taken_back(self, xid: Xid) -> None:
        """Warns if a table has kept what the branch wrote: it may have been made since the tables were looked at."""
        # The branch is over. A connection that is lost meanwhile is found by whoever uses it next.
        with contextlib.suppress(ConnectionLost, self.errors.MySQLError):
            if self._warning_count() and any(row[1] == KEPT for row in self.run("SHOW WARNINGS")):
                log.warning("%s is rolled back, but wrote in a table of MariaDB that keeps it (MyISAM, Aria, MEMORY ..)", xid)

    def _warning_count(self) -> int:
        """Of how much the server has warned in its last answer."""
        return int(self.link._result.warning_count)

    def _listed(self) -> list[Xid]:
        return [xid for xid in map(xid_of, self.run("XA RECOVER FORMAT='SQL'")) if xid is not None]

    def see_durable(self) -> list[str]:
        names = ("innodb_flush_log_at_trx_commit", "innodb_doublewrite", "default_storage_engine")
        rows = self.run("SHOW GLOBAL VARIABLES WHERE Variable_name IN %s", [names]).rows
        found = {name.lower(): value for name, value in rows}
        flush = found.get(names[0], "1")
        if flush == "0":
            raise SetupError(f"{names[0]} of MariaDB is 0: a branch that it has voted for is lost if it is killed. Set it to 1")
        said = []
        if flush != "1":
            said.append(f"{names[0]} = {flush}: what it has voted for, and what is committed, may be lost with its machine's power")
        if found.get(names[1], "ON") == "OFF":
            said.append(f"{names[1]} = OFF: what it has voted for may be damaged if its machine's power fails")
        if found.get(names[2], "InnoDB") != "InnoDB":
            said.append(f"{names[2]} = {found[names[2]]}: such tables keep what is rolled back")
        tables = self.run(
            "SELECT TABLE_NAME, ENGINE FROM information_schema.TABLES WHERE TABLE_SCHEMA = DATABASE() AND TABLE_TYPE = 'BASE TABLE'"
            f" AND ENGINE IN ('MyISAM', 'Aria', 'MEMORY', 'CSV', 'MRG_MyISAM') ORDER BY 1 LIMIT {MOST_NAMED}"
        ).rows
        if tables:
            said.append("tables that keep what is rolled back: " + ", ".join(f"{name} ({engine})" for name, engine in tables))
        return said

    def identity(self, kept: str | None) -> str | None:
        # What the server calls itself changes with its machine. So it is only taken where the database can't have a name of its own.
        if kept is None or not kept.startswith(SERVER):
            own = self._own_identity()
            if own is not None:
                return f"the database {own} of MariaDB"
        rows = self.run("SHOW GLOBAL VARIABLES LIKE 'server_uid'").rows
        return f"{SERVER} {rows[0][1]} of MariaDB" if rows else None

    def _own_identity(self) -> str | None:
        """What is in the view that the driver makes in the database at its first use. None if it can't be made: there is no database,
        or no privilege."""
        read = f"SELECT id FROM {IDENTITY}"
        try:
            try:
                rows = self.run(read).rows
            except self.errors.MySQLError as error:
                if error.args[0] != NO_SUCH_TABLE:
                    raise
                # Of several that make it at once one does.
                self.run(f"CREATE SQL SECURITY INVOKER VIEW IF NOT EXISTS {IDENTITY} AS SELECT '{uuid.uuid4()}' AS id")
                rows = self.run(read).rows
        except self.errors.MySQLError:
            return None
        return str(rows[0][0]) if rows else None

    def is_replicated(self) -> bool | None:
        return self.run("SHOW VARIABLES LIKE 'wsrep_on'").rows == [("wsrep_on", "ON")]

    def serve_mirror(self) -> None:
        if self.is_replicated():
            # A node of Galera shows what another one has committed only a moment later, unless it is told to wait for that.
            self.run("SET SESSION wsrep_sync_wait = 1")

    # ** statements

    def _send_ahead(self, verb: str, xid: Xid) -> bool:
        if verb not in ("prepare", "commit"):
            return False
        self._end_work(xid)
        if self._fault is None:
            statement = statement_of(verb.upper(), xid)
            try:
                self._send(statement)
            except (self.errors.MySQLError, OSError) as error:
                raise ConnectionLost(str(error)) from error
            self._sent = statement
        return self._sent is not None

    def _send(self, statement: str) -> None:
        """Sends a statement, whose answer `_read` waits for."""
        from pymysql.constants import COMMAND

        self.link._execute_command(COMMAND.COM_QUERY, statement)

    def _read(self) -> None:
        self.link._read_query_result()

    def _xa(self, verb: str, xid: Xid, tail: str = "") -> None:
        statement = statement_of(verb, xid, tail)
        sent, self._sent = self._sent, None
        with Asking(self):
            if sent is None:
                self.link.query(statement)
            elif sent == statement:
                self._read()
            else:
                raise ConnectionLost(f"the answer to {sent} was never read")


def statement_of(verb: str, xid: Xid, tail: str = "") -> str:
    """The statement that does something to a branch."""
    return f"XA {verb} {text_in_xa(xid)}{tail}"


def text_in_xa(xid: Xid) -> str:
    """An identifier as MariaDB's statements of XA have it, as in X'0a',X'01',7."""
    return f"X'{xid.gtrid.hex()}',X'{xid.bqual.hex()}',{xid.format}"


#: How XA RECOVER FORMAT='SQL' writes an identifier: in hexadecimal, or as plain text if nothing in it stands against that. It leaves
#: out an empty part, and a format of 1.
LISTED = re.compile(r"(X?)'([^']*)'(?:,X?'([^']*)')?(?:,-?[0-9]+)?")


def xid_of(row: tuple[Any, ...]) -> Xid | None:
    """The identifier that a row of XA RECOVER FORMAT='SQL' lists. None if it is none of XA's, as with an empty part: then it is another
    program's."""
    found = LISTED.fullmatch(row[3])
    if found is None:
        return None
    parts = [found.group(2), found.group(3) or ""]
    try:
        gtrid, bqual = (bytes.fromhex(part) if found.group(1) else part.encode("ascii") for part in parts)
        return Xid(int(row[0]), gtrid, bqual)
    except ValueError:
        return None
