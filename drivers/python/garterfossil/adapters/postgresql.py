"""PostgreSQL as a resource manager, by psycopg2. Tried with PostgreSQL 15; needs 13."""

from __future__ import annotations

import math
import re
from collections.abc import Callable, Collection
from typing import Any

from ..codes import Code
from ..errors import ConnectionLost, SetupError, Unanswered
from ..statements import POSTGRESQL
from ..xid import Call, Xid
from .base import Connection, Database, Place, State, varied, xids_in

#: By the state of an error (SQLSTATE) why the branch was rolled back. All of class 23 break a constraint.
VOTES = {
    "40P01": Code.RBDEADLOCK,
    "40001": Code.RBTRANSIENT,
    "55P03": Code.RBTIMEOUT,
    "57014": Code.RBTIMEOUT,
}
NO_SUCH_BRANCH, IN_USE = "42704", "42710"
OTHER_DATABASE, OTHER_USER = "0A000", "42501"
#: A setting by which a branch's transaction is known.
MARK = "garterfossil.branch"
#: What PostgreSQL may lose while a setting is off.
LOSSES = {
    "fsync": "what it has voted for, and what is committed, may be lost with its machine's power",
    "full_page_writes": "what it has voted for, and what is committed, may be damaged if its machine's power fails",
    "synchronous_commit": "a transaction in this database alone may be told as committed, and be lost in a crash",
}
#: So many tables are named in a warning.
MOST_NAMED = 10
#: libpq's PQTRANS_IDLE and PQTRANS_INERROR.
IDLE, IN_ERROR = 0, 3


#: What the server says as it refuses a connection that it will go on to refuse. psycopg2 has no SQLSTATE of these.
REFUSALS = re.compile(
    r"authentication failed|role .* does not exist|database .* does not exist|no pg_hba\.conf entry|permission denied"
    r"|is not permitted to log in|no password supplied|invalid (connection option|dsn)",
    re.IGNORECASE,
)
#: Passwords in a DSN, in quotes or not, or in a URL.
SECRET = re.compile(r"(password\s*=\s*)(?:'(?:[^'\\]|\\.)*'?|[^\s&]+)|(://[^:/@]*:)[^@]*(?=@)", re.IGNORECASE)
#: What the application_name of a connection ends with that ends others.
RECOVERY = " recovery"
#: PostgreSQL cuts an application_name off after so many bytes.
LONGEST_LABEL = 63
#: What psycopg2's own connection shows to a program.
SHOWN = frozenset(
    "closed cursor_factory deferrable dsn encoding get_backend_pid get_dsn_parameters get_parameter_status get_transaction_status"
    " info isolation_level notices notifies protocol_version readonly server_version status binary_types string_types".split()
)


class PostgreSQL(Database):
    """A database of PostgreSQL. Its setting `max_prepared_transactions` has to be at least the number of threads; the
    default is 0.

    `dsn` and `parameters` are those of psycopg2.connect. `name` begins the application_name of the driver's connections, after
    which come the manager's name, if it has one, and the database's number: no other program uses that with the same user.
    `lock_timeout` is for how many seconds a statement waits for a lock: no database sees a deadlock that goes over two of them.
    `on_connect` is called with each new connection of the module, as for its adapters of types. `password` may be a function."""

    SQLALCHEMY = "postgresql+psycopg2"

    def __init__(
        self,
        dsn: str = "",
        *,
        name: str = "garterfossil",
        lock_timeout: float = 10.0,
        on_connect: Callable[[Any], None] | None = None,
        **parameters: Any,
    ):
        for word, instead in (("application_name", "name"), ("async", "transaction_async of the manager"), ("async_", "threads")):
            if word in parameters:
                raise ValueError(f"{word} is the driver's own: give {instead}")
        self.on_connect = on_connect
        self._dsn = dsn
        self._parameters = parameters
        self._name = name
        self._lock_timeout = lock_timeout

    def __repr__(self) -> str:
        shown = SECRET.sub(r"\1\2...", self._dsn)
        return f"PostgreSQL({shown!r})"

    def connect(self, place: Place = Place()) -> PostgreSQLConnection:
        return self._connection(self._label(place), place)

    def end_connections(self, kept: Collection[int], place: Place = Place()) -> int:
        label = self._label(place)
        return self._connection(f"{label}{RECOVERY}", place).end_others(label, kept)

    def _label(self, place: Place) -> str:
        """The application_name of a place's connections. Raises SetupError if it is too long, so that they would never be found."""
        label = " ".join(word for word in (self._name, place.manager, str(place.number)) if word)
        if len(f"{label}{RECOVERY}".encode()) > LONGEST_LABEL:
            raise SetupError(f"name={self._name!r} is too long: PostgreSQL would cut the application_name {label!r} off")
        return label

    def by_hand(self, call: Call) -> str:
        return f"{call.verb} PREPARED '{call.xid}';"

    def _connection(self, label: str, place: Place) -> PostgreSQLConnection:
        import psycopg2

        return PostgreSQLConnection(self._link(psycopg2, label, place), self._lock_timeout, place)

    def _link(self, module: Any, label: str, place: Place) -> Any:
        """A connection of the module, of this application_name."""
        seconds = max(2, math.ceil(place.patience))
        waits = {"connect_timeout": seconds, "tcp_user_timeout": 1000 * seconds}
        given = {word: value for word, value in waits.items() if word not in self._dsn}
        try:
            link = module.connect(self._dsn, **{**given, **self.with_secrets(self._parameters)}, application_name=label)
            link.autocommit = True
        except (module.OperationalError, module.ProgrammingError) as error:
            said = str(error).strip()
            if isinstance(error, module.ProgrammingError) or REFUSALS.search(said):
                raise SetupError(said) from error
            raise ConnectionLost(said) from error
        self.set_up(link)
        return link


class PostgreSQLConnection(Connection):
    """A connection to PostgreSQL. A prepared branch is named by the text of its identifier. PostgreSQL has no xa_end."""

    TEXTS = POSTGRESQL
    TAKES_BACK = True
    SHOWN = SHOWN

    def __init__(self, link: Any, lock_timeout: float, place: Place = Place()):
        super().__init__(link, place)
        self.number = self._pid()
        # Whether psycopg2 takes the connection for one with a transaction of psycopg2's own.
        self._is_begun = False
        # Whether the COMMIT of a branch that only read may fail.
        self._may_fail = False
        with self.timed(place.patience):
            self.run(f"SET lock_timeout = {int(varied(lock_timeout) * 1000)}")
            most = int(self.run("SHOW max_prepared_transactions").rows[0][0])
            # Whose a branch is that it prepares: it is ended by the same role, or a superuser.
            self._role = self.run("SELECT current_user").rows[0][0]
        if most < place.threads:
            self.close()
            raise SetupError(
                f"max_prepared_transactions of PostgreSQL is {most}: set it to {place.threads} or more, the number of threads"
            )

    @property
    def errors(self) -> Any:
        """The module's errors (PEP 249)."""
        import psycopg2

        return psycopg2

    def _plain_cursor(self) -> Any:
        import psycopg2

        return self.link.cursor(cursor_factory=psycopg2.extensions.cursor)

    def _pid(self) -> int:
        """The number of the server's process."""
        return int(self.link.get_backend_pid())

    def _status(self) -> int:
        """How its transaction stands, by libpq's number (`IDLE`, `IN_ERROR`)."""
        return int(self.link.get_transaction_status())

    def _descriptor(self) -> int | None:
        return int(self.link.fileno())

    def _close(self) -> None:
        try:
            self.link.close()
        except self.errors.Error:
            pass

    def end_others(self, label: str, kept: Collection[int]) -> int:
        """Ends the connections of this label, except those that are kept, and itself: how many there were."""
        own = "usename = current_user AND datname = current_database()"
        statement = f"SELECT pid FROM pg_stat_activity WHERE application_name = %s AND {own}"
        return self.end_those(
            lambda: [pid for pid, in self.run(statement, [label]) if pid not in kept],
            lambda pid: self.run("SELECT pg_terminate_backend(%s)", [pid]),
        )

    # ** work

    @property
    def fault(self) -> Code | None:
        if self._status() != IN_ERROR:
            return None
        return self._fault or Code.RBROLLBACK

    def cursor(self, *words: Any, **options: Any) -> Any:
        if (words and words[0] or options.get("name")) and not self._is_begun:
            # psycopg2 streams rows only in a transaction that it takes for its own: it would send BEGIN, which the server meets
            # with a warning.
            self.link.autocommit = False
            self._is_begun = True
        return self.link.cursor(*words, **options)

    def text_of(self, statement: Any) -> str:
        if hasattr(statement, "as_string"):
            return str(statement.as_string(self.link))
        return super().text_of(statement)

    def _vote_of(self, error: Exception) -> Code | None:
        return vote_of(error) if isinstance(error, self.errors.Error) else None

    def _see_branch(self) -> None:
        if self._is_idle():
            raise self._ended_by_statement()

    # ** calls

    def _start(self, xid: Xid) -> Code:
        # An identifier that is in use is found as the branch is prepared. The setting ends with the transaction, so that one which a
        # statement began in its place is told from it.
        begin = " ".join(["BEGIN", ", ".join(self.options.modes)]).strip()
        self.run(f"{begin}; SET LOCAL {MARK} = 'it is there'")
        return Code.OK

    def _end(self, xid: Xid) -> None:
        """PostgreSQL has no xa_end."""

    def _prepare(self, xid: Xid) -> Code:
        try:
            if self.fault is None and not self._see_state():
                return self._voted_read()
            # Of a transaction that failed PREPARE TRANSACTION makes a rollback, which only its tag tells.
            tag = self.run("PREPARE TRANSACTION %s", [str(xid)]).tag
        except self.errors.Error as error:
            self.reason, self.is_double = error, state_of(error) == IN_USE
            self._see_rolled_back()
            return vote_of(error)
        return Code.OK if tag == "PREPARE TRANSACTION" else self._fault or Code.RBROLLBACK

    def _see_state(self) -> bool:
        """Sees that the branch's transaction is the one that goes on. Whether it has written."""
        names = f"current_setting('{MARK}', true), current_user, current_setting('transaction_isolation')"
        (written, mark, role, isolation), = self.run(f"SELECT pg_current_xact_id_if_assigned(), {names}").rows
        if not mark:
            raise self._ended_by_statement()
        if role != self._role:
            # The program has taken another one: no recovery would be let end the branch, and the next transaction would have it.
            name = str(self._role).replace('"', '""')
            self.run(f'SET ROLE "{name}"')
        self._may_fail = isolation == "serializable"
        return written is not None

    def _voted_read(self) -> Code:
        """The vote of a branch that only read. Its COMMIT, by which others hear what it notifies,
        waits for the outcome, unless it may fail."""
        if self._may_fail:
            return Code.RDONLY if self.run("COMMIT").tag == "COMMIT" else Code.RBROLLBACK
        self._state = State.READ
        return Code.RDONLY

    def _end_read(self, is_committed: bool) -> None:
        self.run("COMMIT" if is_committed else "ROLLBACK")

    def _see_rolled_back(self) -> None:
        """A PREPARE TRANSACTION or COMMIT that fails has rolled back; a statement before it leaves that to be done."""
        if not self._is_idle():
            self.run("ROLLBACK")

    def _commit_in_one_phase(self, xid: Xid) -> Code:
        try:
            tag = self.run("COMMIT").tag
        except self.errors.Error as error:
            self.reason = error
            self._see_rolled_back()
            return vote_of(error)
        return Code.OK if tag == "COMMIT" else self._fault or Code.RBROLLBACK

    def _roll_back(self, xid: Xid) -> None:
        self.run("ROLLBACK")

    def _commit_prepared(self, xid: Xid) -> Code:
        return self._end_prepared("COMMIT PREPARED %s", xid)

    def _roll_back_prepared(self, xid: Xid) -> Code:
        return self._end_prepared("ROLLBACK PREPARED %s", xid)

    def _end_prepared(self, statement: str, xid: Xid) -> Code:
        try:
            self.run(statement, [str(xid)])
        except self.errors.Error as error:
            if state_of(error) == NO_SUCH_BRANCH:
                return Code.NOTA
            if state_of(error) in (OTHER_DATABASE, OTHER_USER):
                raise SetupError(f"{xid} can't be ended here: {error}".strip()) from error
            raise Unanswered(str(error).strip()) from error
        return Code.OK

    def _is_over(self) -> None:
        super()._is_over()
        if self._is_begun:
            self._leave_begun()

    def _leave_begun(self) -> None:
        """Has psycopg2 know that its transaction is over. To the server, which has none any more, the ROLLBACK does nothing."""
        self._is_begun = False
        try:
            self.link.rollback()
            self.link.autocommit = True
        except self.errors.Error:
            # It is lost, as what uses it next finds.
            self.close()

    def _listed(self) -> list[Xid]:
        rows = self.run("SELECT gid FROM pg_prepared_xacts WHERE database = current_database()")
        return xids_in(gid for gid, in rows)

    def see_durable(self) -> list[str]:
        said = [f"{name} = off: {loss}" for name, loss in LOSSES.items() if self.run(f"SHOW {name}").rows == [("off",)]]
        tables = self.run(
            "SELECT c.oid::regclass::text FROM pg_class c JOIN pg_namespace n ON n.oid = c.relnamespace"
            f" WHERE c.relpersistence = 'u' AND c.relkind IN ('r', 'p') ORDER BY 1 LIMIT {MOST_NAMED}"
        ).rows
        names = ", ".join(str(name) for name, in tables)
        return [*said, f"tables that are UNLOGGED are empty after a crash: {names}"] if tables else said

    def identity(self, kept: str | None) -> str | None:
        try:
            rows = self.run("SELECT system_identifier, oid FROM pg_control_system(), pg_database WHERE datname = current_database()").rows
        except self.errors.Error:
            # The user may not ask.
            return None
        return f"the database {rows[0][1]} of the system {rows[0][0]} of PostgreSQL" if len(rows) == 1 else None

    def is_replicated(self) -> bool | None:
        waits = self.run("SHOW synchronous_commit").rows[0][0]
        return bool(self.run("SHOW synchronous_standby_names").rows[0][0]) and waits in ("on", "remote_apply")

    def serve_mirror(self) -> None:
        self.run("SET client_min_messages = warning")
        self.warnings()

    def warnings(self) -> list[str]:
        said = [" ".join(notice.split()) for notice in self.link.notices]
        self.link.notices.clear()
        return said

    def ages(self) -> dict[Xid, float]:
        rows = self.run(
            "SELECT gid, extract(epoch FROM now() - prepared)::float8 FROM pg_prepared_xacts WHERE database = current_database()"
        )
        return {xid: float(age) for gid, age in rows for xid in xids_in([gid])}

    # ** its state

    def _is_lost(self, error: Exception) -> bool:
        """Whether the connection is lost: it is closed, or PostgreSQL says that it ends it. 57014 is of one statement that was
        cancelled. An error without a state is psycopg2's own; of those an OperationalError or a plain DatabaseError is a loss."""
        if not isinstance(error, self.errors.Error):
            return False
        state = state_of(error)
        if self.link.closed:
            return True
        if state is None:
            return type(error) in (self.errors.OperationalError, self.errors.DatabaseError, self.errors.Error)
        return state[:2] in ("08", "57") and state != "57014"

    def _is_idle(self) -> bool:
        return self._status() == IDLE


def vote_of(error: Any) -> Code:
    """Why a branch is rolled back whose work failed so."""
    state = state_of(error) or ""
    return Code.RBINTEGRITY if state.startswith("23") else VOTES.get(state, Code.RBOTHER)


def state_of(error: Any) -> str | None:
    """The state of an error (SQLSTATE), if the server sent it: psycopg2 and psycopg have it under names of their own."""
    return getattr(error, "pgcode", None) or getattr(error, "sqlstate", None)
