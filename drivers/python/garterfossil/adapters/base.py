"""A resource manager of XA over a connection to a database: what is the same for each kind of database."""

from __future__ import annotations

import abc
import enum
import random
import re
import threading
import time
from collections.abc import Callable, Collection, Iterable, Iterator, Mapping, Sequence
from dataclasses import dataclass
from typing import Any, TypeVar, Union

from ..codes import Code
from ..errors import ConnectionLost, HeuristicEnd, TransactionOver, Unanswered, XaError
from ..statements import Texts
from ..watch import Wire
from ..xid import FORMAT, Call, Xid

T = TypeVar("T")
#: What the modules take for the placeholders of a statement.
Parameters = Union[Sequence[Any], Mapping[str, Any]]


@dataclass(frozen=True)
class Result:
    """What a statement gave: its rows, and how many rows it changed or found."""

    rows: list[tuple[Any, ...]]
    rowcount: int
    #: The names of the columns.
    columns: Sequence[str] = ()
    #: The number that MariaDB gave to the last row by itself, if it did.
    lastrowid: int | None = None
    #: What PostgreSQL ended the statement with, as in `UPDATE 1`.
    tag: str = ""

    def __iter__(self) -> Iterator[tuple[Any, ...]]:
        return iter(self.rows)


class State(enum.Enum):
    """Where the branch of a connection stands, as XA's branch state table has it."""

    NONE = enum.auto()
    ACTIVE = enum.auto()
    IDLE = enum.auto()
    PREPARED = enum.auto()
    #: It only read, which was its vote, and its transaction goes on until the outcome is told.
    READ = enum.auto()


@dataclass(frozen=True)
class Place:
    """The place that a database has at a transaction manager: what tells the manager's branches and connections there from
    those of others."""

    #: The manager's name, if it has one.
    manager: str = ""
    #: The database's number, by which the coordinator knows it.
    number: int = 0
    #: How many transactions the manager runs at once.
    threads: int = 1
    #: For how many seconds the database is waited for.
    patience: float = 30.0

    def owns(self, xid: Xid) -> bool:
        """Whether the branch is the manager's, at this database. A server may list those of its other databases, too."""
        name = self.manager.encode("ascii")
        return (
            xid.format == FORMAT
            and len(xid.gtrid) == len(name) + 16
            and xid.gtrid.startswith(name)
            and len(xid.bqual) == 8
            and xid.bqual[4:] == self.number.to_bytes(4, "big")
        )


#: The levels of isolation that SQL has.
ISOLATIONS = ("read uncommitted", "read committed", "repeatable read", "serializable")


@dataclass(frozen=True)
class Options:
    """How the transactions of a branch are to run at the database."""

    #: One of SQL's levels of isolation. None for the database's own.
    isolation: str | None = None
    #: Whether the database is to refuse what writes.
    read_only: bool = False

    def __post_init__(self) -> None:
        if self.isolation is not None and self.isolation not in ISOLATIONS:
            raise ValueError(f"isolation: one of {', '.join(ISOLATIONS)}, not {self.isolation!r}")

    @property
    def modes(self) -> list[str]:
        """SQL's words for them."""
        level = [f"ISOLATION LEVEL {self.isolation.upper()}"] if self.isolation else []
        return [*level, "READ ONLY"] if self.read_only else level


class Database(abc.ABC):
    """A database that takes part in transactions: how it is reached. Its methods may be called by any thread."""

    #: What is called with each new connection of the module, before anything is done on it.
    on_connect: Callable[[Any], None] | None = None
    #: How SQLAlchemy names its own dialect for the module that reaches the database, if it has one.
    SQLALCHEMY: str | None = None
    #: The end of a SELECT by which the rows of its table `m` stay as they are until the transaction ends.
    SHARED = "FOR SHARE OF m"
    #: The type of a text of so many letters at most, which is compared byte by byte.
    EXACT_TEXT = "varchar({})"

    def with_exact_texts(self, table: str) -> str:
        """The columns of a table, in which numbers in braces stand for the types of texts."""
        return re.sub(r"\{(\d+)\}", lambda found: self.EXACT_TEXT.format(found.group(1)), table)

    @staticmethod
    def with_secrets(parameters: Mapping[str, Any]) -> dict[str, Any]:
        """The keywords of a connection: a password may be a function, which is asked for it each time."""
        return {word: value() if word in ("password", "passwd") and callable(value) else value for word, value in parameters.items()}

    def set_up(self, link: Any) -> None:
        """Calls the program's function with a new connection of the module."""
        if self.on_connect is not None:
            self.on_connect(link)

    @abc.abstractmethod
    def connect(self, place: Place = Place()) -> Connection:
        """A new connection. Raises ConnectionLost if there is none to be had now, and SetupError if there never will be, as
        with a wrong password."""

    def can_be_reached(self, place: Place = Place()) -> bool:
        """Whether a connection is to be had."""
        try:
            self.connect(place).close()
        except ConnectionLost:
            return False
        return True

    def by_hand(self, call: Call) -> str:
        """The statement by which an operator makes a call on a prepared branch."""
        return f"make the call {call}"

    @abc.abstractmethod
    def end_connections(self, kept: Collection[int], place: Place = Place()) -> int:
        """Ends all connections of this place except those of these numbers, and waits until they are gone: what they had under
        way can't happen any more. How many it ended. Raises ConnectionLost if that can't be done."""


class Timed:
    """A block within which a connection is waited for for so many seconds. One within another counts for nothing."""

    __slots__ = ("_wire", "_seconds")

    def __init__(self, wire: Wire | None, seconds: float):
        self._wire = None if wire is None or wire.due is not None else wire
        self._seconds = seconds

    def __enter__(self) -> None:
        if self._wire is not None:
            self._wire.due = time.monotonic() + self._seconds

    def __exit__(self, _: object, error: BaseException | None, __: object) -> None:
        if self._wire is None:
            return
        self._wire.due = None
        if isinstance(error, ConnectionLost) and self._wire.is_cut:
            raise ConnectionLost(f"no answer came in {self._seconds:.1f} seconds, and the connection was given up") from error


class Asking:
    """A block that asks a database: an error which says that the connection is lost is raised as ConnectionLost."""

    __slots__ = ("_connection",)

    def __init__(self, connection: Connection):
        self._connection = connection

    def __enter__(self) -> None:
        """It begins."""

    def __exit__(self, _: object, error: BaseException | None, __: object) -> None:
        if isinstance(error, Exception) and not isinstance(error, XaError) and self._connection._is_lost(error):
            raise ConnectionLost(str(error).strip()) from error


class Connection(abc.ABC):
    """A connection to a database, as a resource manager of XA. It has one branch at a time, and one thread uses it.

    What a subclass gives are the database's statements for each call; where a branch stands is kept here."""

    #: The number by which the database knows the connection.
    number: int
    #: How the database reads the text of a statement.
    TEXTS: Texts
    #: What a program may read of the module's own connection, or call of it: nothing of it changes a transaction or a session.
    SHOWN: frozenset[str] = frozenset()
    #: Whether a rollback to a savepoint takes a statement back that failed, so that the branch may be committed.
    TAKES_BACK = False

    def __init__(self, link: Any = None, place: Place = Place()) -> None:
        #: The module's own connection.
        self.link = link
        self.place = place
        #: For the next branch: how it is to run, and until which moment of the monotonic clock it may.
        self.options = Options()
        self.limit: float | None = None
        descriptor = self._descriptor()
        self._wire = None if descriptor is None else Wire(descriptor)
        # Held while something is done on the connection: a branch that another thread has kept waits, and then isn't the one.
        self._lock = threading.RLock()
        self._xid: Xid | None = None
        self._state = State.NONE
        #: Why the branch can only be rolled back, if its work failed.
        self._fault: Code | None = None
        #: The database's own error because of which it can, or because of which the last branch was rolled back.
        self.reason: BaseException | None = None
        #: Whether the database had a branch of the last one's identifier already.
        self.is_double = False
        #: Whether a statement of the program has ended its branch.
        self.is_ended_by_statement = False
        #: Whether a statement of the program has changed what stays after its branch, as a setting:
        #: no other branch is to have that.
        self.is_changed = False

    # ** work

    def execute(self, statement: str, parameters: Parameters = ()) -> Result:
        """Does a statement in the branch that is active. A database's own error is raised as it is; the branch can then only be
        rolled back, also where the database itself would go on."""
        return self.work(self._xid, lambda: self._work(statement, parameters))

    def work(self, xid: Xid | None, step: Callable[[], T]) -> T:
        """Does a step of the work on a branch. Raises TransactionOver, and does nothing, unless it is this branch that is active
        on the connection."""
        with self._lock:
            if not self.is_active(xid):
                raise TransactionOver("the branch is over, or work on it is")
            if self.limit is None:
                return self._worked(step)
            with self.timed(max(0.0, self.limit - time.monotonic())):
                return self._worked(step)

    def _worked(self, step: Callable[[], T]) -> T:
        try:
            with Asking(self):
                done = step()
        except XaError:
            raise
        except Exception as error:
            vote = self._vote_of(error)
            if vote is not None:
                self._fault, self.reason = vote, error
            raise
        self._see_branch()
        return done

    def timed(self, seconds: float) -> Timed:
        """A block that ends after so many seconds: the connection is cut off then, and ConnectionLost is raised."""
        return Timed(self._wire, seconds)

    def is_there(self) -> bool:
        """Whether the database hasn't ended the connection, as far as is known without asking it."""
        return self._wire is None or self._wire.is_there()

    def close(self) -> None:
        """Closes the connection. Raises nothing."""
        self._close()
        if self._wire is not None:
            self._wire.close()

    def is_active(self, xid: Xid | None) -> bool:
        """Whether work on this branch is under way on the connection."""
        return self._state is State.ACTIVE and xid == self._xid

    def cursor(self, *words: Any, **options: Any) -> Any:
        """A cursor of the module, for the work of a program."""
        return self.link.cursor(*words, **options)

    def text_of(self, statement: Any) -> str:
        """The text of a statement, which the module may take in other forms."""
        return statement.decode("utf-8", "replace") if isinstance(statement, (bytes, bytearray)) else str(statement)

    @property
    def has_branch(self) -> bool:
        """Whether it has a branch that isn't over."""
        return self._state is not State.NONE

    @property
    def fault(self) -> Code | None:
        """Why the branch can only be rolled back, if its work failed."""
        return self._fault

    # ** calls

    def do(self, verb: str, xid: Xid) -> Code:
        """Makes the calls of XA on a branch that a word of the coordinator tells (docs/MOVES.md),
        or that of `start`: how the last of them is answered. Raises ConnectionLost or Unanswered."""
        with self._lock, self.timed(self.place.patience):
            if verb == "start":
                return self._start_branch(xid)
            if verb == "forget":
                # Neither database ends a branch by itself and remembers it.
                return Code.NOTA
            if xid == self._xid:
                return self._end_own(verb, xid)
            if verb == "commit":
                return self._commit_prepared(xid)
            return self._roll_back_prepared(xid) if verb == "rollback" else Code.NOTA

    def send(self, verb: str, xid: Xid) -> bool:
        """Sends the statement of `prepare` or `commit`, of which `do` then waits for the answer. Whether that was done."""
        with self._lock, self.timed(self.place.patience):
            return xid == self._xid and self._send_ahead(verb, xid)

    def _start_branch(self, xid: Xid) -> Code:
        if self._state is not State.NONE:
            raise Unanswered("the connection has another branch")
        code = self._start(xid)
        self.is_double = code is Code.DUPID
        if code is Code.OK:
            self._xid, self._state, self._fault, self.reason = xid, State.ACTIVE, None, None
            self._watch(self.limit)
        return code

    def _end_work(self, xid: Xid) -> None:
        """xa_end, unless it was made."""
        if self._state is State.ACTIVE:
            self._watch(None)
            self._end(xid)
            self._state = State.IDLE

    def _end_own(self, verb: str, xid: Xid) -> Code:
        self._end_work(xid)
        code = Code.OK
        if verb == "prepare":
            code = self._prepare(xid)
        elif verb == "commit-at-once":
            code = self._commit_in_one_phase(xid)
        elif verb == "commit":
            code = self._commit_prepared(xid)
        elif self._state is State.PREPARED:
            code = self._roll_back_prepared(xid)
        else:
            self._roll_back(xid)
        if verb == "prepare" and code is Code.OK:
            self._state = State.PREPARED
        elif self._state is not State.READ and code is not Code.RETRY:
            self._is_over()
        return code

    def end_read(self, xid: Xid, is_committed: bool) -> None:
        """The outcome is told, with which a branch ends that only read: so what it notified is
        heard of if it is committed, and not before. Raises ConnectionLost."""
        with self._lock, self.timed(self.place.patience):
            if self._state is State.READ and xid == self._xid:
                self._end_read(is_committed)
                self._is_over()

    def _watch(self, limit: float | None) -> None:
        """Has the connection cut off at a moment, also if nothing is under way on it then."""
        if self._wire is not None:
            self._wire.limit = limit

    def _is_over(self) -> None:
        self._watch(None)
        self._xid, self._state, self._fault = None, State.NONE, None
        self.options, self.limit = Options(), None

    def end_those(self, find: Callable[[], Collection[int]], end: Callable[[int], object]) -> int:
        """Ends connections of the place until no more are found, for 20 seconds at most, and then
        this one: how many there were."""
        ended: set[int] = set()
        until = time.monotonic() + min(20, self.place.patience)
        try:
            with self.timed(self.place.patience):
                while True:
                    numbers = find()
                    if not numbers:
                        return len(ended)
                    if time.monotonic() >= until:
                        raise ConnectionLost("connections of an earlier driver stay at the database")
                    for number in numbers:
                        end(number)
                    ended.update(numbers)
                    time.sleep(0.02)
        finally:
            self.close()

    def listed(self) -> list[Xid]:
        """The prepared branches of the connection's own place."""
        return [xid for xid in self._listed() if self.place.owns(xid)]

    def all_listed(self) -> list[Xid]:
        """The prepared branches of all places and managers."""
        return sorted(self._listed())

    def is_replicated(self) -> bool | None:
        """Whether what the connection commits is on another machine once that is answered. None if that isn't known."""
        return None

    def serve_mirror(self) -> None:
        """Makes it a connection to a mirror: it reads all that was committed before, by whichever machine, and `warnings` has what the
        database warns of."""

    def warnings(self) -> list[str]:
        """What the database has warned of since this was asked last."""
        return []

    def see_durable(self) -> list[str]:
        """Looks at settings and tables by which the database may lose what it has voted for, or what it said is committed: what a warning
        is to say. Raises SetupError if it may do so whenever its own process is killed."""
        return []

    def identity(self, kept: str | None) -> str | None:
        """What the database calls itself, which no other one does: the same as what was kept of it, if it is the same. None if it has
        nothing of the kind."""
        return None

    def ages(self) -> dict[Xid, float]:
        """For how many seconds branches have been prepared, as far as the database tells."""
        return {}

    # ** what a kind of database gives

    @abc.abstractmethod
    def _close(self) -> None:
        """Closes the module's connection. Raises nothing."""

    def _descriptor(self) -> int | None:
        """The descriptor of the connection's socket, by which it is cut off if no answer comes in time. None if it isn't known: then
        the module has to see to that."""
        return None

    def _plain_cursor(self) -> Any:
        """A cursor of the module whose rows are tuples, whatever kind of cursor the program has asked for."""
        return self.link.cursor()

    def run(self, statement: str, parameters: Parameters = ()) -> Result:
        """Does a statement for the program's own ends, outside of any branch. Errors of the database are raised as they are, but
        ConnectionLost where the connection is lost."""
        with Asking(self), self._plain_cursor() as cursor:
            cursor.execute(statement, parameters or None)
            columns = [column[0] for column in cursor.description or ()]
            rows = list(cursor.fetchall()) if columns else []
            number, tag = getattr(cursor, "lastrowid", None), getattr(cursor, "statusmessage", None)
            return Result(rows, cursor.rowcount, columns, number or None, tag or "")

    def _work(self, statement: str, parameters: Parameters) -> Result:
        """Does a statement in the branch."""
        return self.run(statement, parameters)

    def _is_lost(self, error: Exception) -> bool:
        """Whether an error of the module says that the connection is lost."""
        return False

    def _vote_of(self, error: Exception) -> Code | None:
        """Why a branch is to be rolled back of which some work failed so. None if the error isn't the database's."""
        return None

    def _see_branch(self) -> None:
        """Sees that a step of work has left the branch as it was. Raises HeuristicEnd if it hasn't."""

    def _ended_by_statement(self) -> HeuristicEnd:
        """What is raised where a statement has ended the branch's transaction: what was done before may stand, whatever becomes of the
        branches at other databases."""
        self.is_ended_by_statement = True
        return HeuristicEnd("a statement ended the branch's transaction, which is for the coordinator: what it had done may stand")

    @abc.abstractmethod
    def _start(self, xid: Xid) -> Code:
        """Begins a branch: OK, or DUPID."""

    @abc.abstractmethod
    def _end(self, xid: Xid) -> None:
        """Ends the work on the branch."""

    @abc.abstractmethod
    def _prepare(self, xid: Xid) -> Code:
        """Prepares the branch: OK, RDONLY, or why it was rolled back. Except for OK it is over, unless its state is READ then."""

    def _end_read(self, is_committed: bool) -> None:
        """Ends the transaction of a branch whose state is READ."""

    def _send_ahead(self, verb: str, xid: Xid) -> bool:
        """Sends the statement of a verb, if the module can read its answer later. Whether it did."""
        return False

    @abc.abstractmethod
    def _commit_in_one_phase(self, xid: Xid) -> Code:
        """Commits the branch: OK, or why it was rolled back."""

    @abc.abstractmethod
    def _roll_back(self, xid: Xid) -> None:
        """Rolls back the branch, which isn't prepared."""

    @abc.abstractmethod
    def _commit_prepared(self, xid: Xid) -> Code:
        """Commits a prepared branch, of this connection or not: OK, RETRY, or NOTA where the database doesn't list it."""

    @abc.abstractmethod
    def _roll_back_prepared(self, xid: Xid) -> Code:
        """Rolls back a prepared branch, of this connection or not: OK, or NOTA where the database doesn't list it."""

    @abc.abstractmethod
    def _listed(self) -> Iterable[Xid]:
        """The identifiers of all prepared branches."""


def varied(seconds: float) -> float:
    """A little less than so many seconds, and each time another: of two that wait for each other at
    two databases one gives up first."""
    return seconds * random.uniform(0.8, 1.0)


def xids_in(texts: Iterable[str]) -> list[Xid]:
    """The identifiers that these texts spell. Others are names that somebody else gave."""
    xids = []
    for text in texts:
        try:
            xids.append(Xid.parse(text))
        except ValueError:
            pass
    return xids
