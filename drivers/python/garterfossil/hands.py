"""The hands of the coordinator: they make the calls that it tells, and tell how these were
answered. What comes next, what an answer means and how a transaction ends is the coordinator's to
say (docs/MOVES.md)."""

from __future__ import annotations

import functools
import re
import time
from collections.abc import Mapping, Sequence
from typing import TYPE_CHECKING, NamedTuple

from .adapters.base import Connection, Options
from .aside import side_by_side
from .branch import Branch
from .codes import Code
from .coordinator import Reply
from .errors import ConnectionLost, CoordinatorGone, Unanswered, XaError
from .logger import log
from .outcomes import TOLD, Outcome
from .threads import Line, Thread
from .xid import Xid

if TYPE_CHECKING:
    from .session import Session

HEURISTIC = {Code.HEURHAZ, Code.HEURCOM, Code.HEURRB, Code.HEURMIX}
#: How a call may be answered, beside a rollback with its reason: all else is no answer.
ANSWERS = {
    "prepare": {Code.OK, Code.RDONLY},
    "commit-at-once": {Code.OK},
    "commit": {Code.OK, Code.RETRY, Code.NOTA, *HEURISTIC},
    "rollback": {Code.OK, Code.NOTA, *HEURISTIC},
    "undo": {Code.OK, Code.NOTA, Code.HEURRB},
    "forget": {Code.OK, Code.NOTA},
}
#: What may answer a decided commit, and how a branch was ended otherwise.
NOT_ODD = (Code.OK, Code.RETRY, Code.HEURCOM, None)
ODD = {Code.NOTA: Code.HEURHAZ, **{code: code for code in HEURISTIC}}
#: How a transaction ended: why, at which databases a branch is owed its end, and where it ended otherwise.
ENDED = re.compile(r"([a-z-]+)(?: (\d+) (\d+))?(?: owed((?: \d+)+))?(?: mixed((?: \d+ \d+)+))?(?: next .*)?")


def answer_of(connection: Connection, verb: str, xid: Xid) -> Code:
    """Makes a call: how it is answered. Raises ConnectionLost for what is no answer to it, and what `Connection.do` does."""
    code = connection.do(verb, xid)
    if code in ANSWERS[verb] or code.is_rollback and verb != "forget":
        return code
    raise ConnectionLost(f"{verb} of {xid} was answered {code.name}")


def word_of(code: Code | None) -> str:
    """How a call was answered, as the coordinator is told it. None if it wasn't."""
    return "lost" if code is None else str(int(code))


class Told(NamedTuple):
    """How a transaction ended, as the coordinator tells it."""

    outcome: Outcome
    #: Why it is rolled back, and at which database, if a branch is the reason.
    code: Code | None = None
    rm: int | None = None
    #: Where a branch is yet to be ended, and where the database had ended it otherwise.
    owed: Sequence[int] = ()
    mixed: Mapping[int, Code] = {}
    #: Why the coordinator didn't tell it, if so.
    error: CoordinatorGone | None = None

    @classmethod
    def parse(cls, reply: str) -> Told:
        """What a reply tells. Raises ValueError or KeyError, if there is no such reply."""
        found = ENDED.fullmatch(reply)
        if found is None:
            raise ValueError(reply)
        outcome, code, rm, owed, mixed = found.groups()
        numbers = [int(word) for word in (mixed or "").split()]
        odd = {number: Code(how) for number, how in zip(numbers[::2], numbers[1::2])}
        why = (None, None) if code is None else (Code(int(code)), int(rm))
        return cls(TOLD[outcome], *why, [int(word) for word in (owed or "").split()], odd)


class Part:
    """A branch of a transaction, of which the calls are its hands' alone to make."""

    def __init__(self, line: Line, xid: Xid, options: Options, limit: float | None):
        self.line, self.xid = line, xid
        self.connection = line.make_ready()
        self.connection.options, self.connection.limit = options, limit
        #: What the program works with.
        self.branch = Branch(line, self.connection, xid)
        #: Why a call has no answer.
        self.error: BaseException | None = None
        #: What is odd about how it ended.
        self.oddity: str | None = None
        # When its call was sent that is under way.
        self._sent = 0.0

    @property
    def is_lost(self) -> bool:
        """Whether the line has the connection no more that it was begun on."""
        return self.line.connection is not self.connection

    def start(self) -> None:
        """xa_start: work may begin. Raises XaError, and then there is no branch."""
        try:
            if self.connection.do("start", self.xid) is not Code.OK:
                raise XaError(f"{self.line.rm.label} has a branch {self.xid} already, of another log")
        except BaseException as error:
            self.line.lose()
            if isinstance(error, Unanswered):
                raise ConnectionLost(f"xa_start has no answer: {error}") from error
            raise

    def send(self, verb: str) -> bool:
        """Sends a call ahead of its answer, if the database's module can: whether nothing more is
        to be done but to wait."""
        self.branch._is_over = True
        self._sent = time.monotonic()
        try:
            return self.is_lost or self.connection.send(verb, self.xid)
        except Exception as error:
            self._lose(error)
            return True

    def make(self, verb: str) -> Code | None:
        """Makes a call: how it is answered. None if it isn't, and then the connection is given
        up."""
        try:
            if self.is_lost:
                raise ConnectionLost(f"the connection to {self.line.rm.label} was lost")
            code = answer_of(self.connection, verb, self.xid)
            self._note(verb, code)
            self.line.rm.note_call(time.monotonic() - self._sent)
            return code
        except BaseException as error:
            # What was never committed ends with its connection.
            is_undone = verb == "commit-at-once" and self.connection.is_active(self.xid)
            self._lose(error)
            if not isinstance(error, Exception):
                raise
            return Code.RBCOMMFAIL if is_undone else None

    def end_read(self, is_committed: bool) -> None:
        """The outcome is told, for which a branch that only read has waited."""
        try:
            if not self.is_lost:
                self.connection.end_read(self.xid, is_committed)
        except Exception as error:
            self._lose(error)

    def _note(self, verb: str, code: Code) -> None:
        rm = self.line.rm
        if verb == "prepare" and code is Code.OK:
            rm.prepared[self.xid] = time.monotonic()
        elif verb in ("commit", "rollback"):
            rm.prepared.pop(self.xid, None)
        if verb == "rollback" and (code is Code.OK or code.is_rollback):
            rm.note_undone(self.xid)
        if code is Code.RETRY:
            # Others can end it only once its own connection is gone.
            self.line.lose()

    def _lose(self, error: BaseException) -> None:
        if not isinstance(error, XaError):
            log.warning("%s: %s", self.line.rm.label, error)
        self.error = self.error or error
        self.line.rm.prepared.pop(self.xid, None)
        if not self.is_lost:
            self.line.lose()


def make_all(verb: str, parts: Sequence[Part]) -> list[Code | None]:
    """Makes a call at each of these, side by side: the answers, in their order."""
    sent = [part.send(verb) for part in parts]
    others = [functools.partial(part.make, verb) for part, is_sent in zip(parts, sent) if not is_sent]
    made = iter(side_by_side(others))
    return [part.make(verb) if is_sent else next(made) for part, is_sent in zip(parts, sent)]


class Hands:
    """Those of one transaction: they join its branches, and bring it to its end."""

    def __init__(self, session: Session, thread: Thread, gtrid: str):
        self.parts: dict[int, Part] = {}
        #: What is told if the coordinator ends now; None if the next session knows it.
        self.fate: Outcome | None = Outcome.ROLLED_BACK
        self._session, self._thread, self._gtrid = session, thread, gtrid
        self._joined: set[int] = set()
        # Where a branch was ended otherwise than it was decided, if the coordinator tells no more.
        self._odd: dict[int, Code] = {}
        self._reply: Reply

    def join(self, least: int = 2) -> None:
        """Says which branches have begun, once there are two: so the calls of the first phase are
        told while the work goes on."""
        new = [rm for rm, part in self.parts.items() if rm not in self._joined and not part.is_lost]
        if new and len(self.parts) >= least:
            self._joined.update(new)
            self._move("join", *map(str, new))

    def commit(self) -> Told:
        """The work is over."""
        return self._end("commit")

    def roll_back(self) -> Told:
        """It is to be rolled back."""
        return self._end("rollback")

    def _move(self, verb: str, *words: str, is_asked: bool = False, is_later: bool = False) -> None:
        number = self._thread.number
        self._reply = self._session.coordinator.post(" ".join([verb, str(number), *words]), number, is_asked, is_later)

    def _end(self, verb: str) -> Told:
        """Does what the coordinator tells until it tells the outcome. Whatever comes in between,
        the coordinator is never left without an answer in a session that goes on."""
        try:
            self.join(1)
            if verb == "rollback" or len(self._joined) < 2:
                self._move(verb, is_asked=True)
            told = self._finish()
            self._session.note_told(self._gtrid, self._thread, self._reply, told, self.parts)
        except CoordinatorGone as gone:
            told = Told(self._known(), mixed=self._odd, error=gone)
        except BaseException:
            self._session.coordinator.kill()
            self._known()
            raise
        for part in self.parts.values():
            part.end_read(told.outcome is Outcome.COMMITTED)
        return told

    def _known(self) -> Outcome:
        """What is known of the outcome if the coordinator tells no more. If the next session knows it, that is asked."""
        if self.fate is None:
            self._session.outcomes.ask(self._gtrid)
        return self.fate or Outcome.UNKNOWN

    def _finish(self) -> Told:
        while True:
            told, verb, parts = self._understood(self._session.coordinator.wait(self._reply), self._reply.move)
            if told is not None:
                self.fate = told.outcome
                return told
            answers = self._make(verb, parts)
            # Nothing else can be told after these. So nobody waits for it, and it goes with what is said next.
            is_over = verb in ("commit", "commit-at-once") and all(code is Code.OK for code in answers)
            self._move("tell", *map(word_of, answers), is_asked=not is_over, is_later=is_over)
            if is_over:
                return Told(Outcome.COMMITTED)

    def _understood(self, words: str, to: str) -> tuple[Told | None, str, list[Part]]:
        """The outcome that a reply tells, or else the call, and the branches at which it is to be
        made."""
        verb, *rms = words.split(" ")
        try:
            if verb in TOLD:
                told = Told.parse(words)
                named = [*told.owed, *told.mixed, *([] if told.rm is None else [told.rm])]
                return told, verb, [self.parts[rm] for rm in named]
            parts = [self.parts[int(rm)] for rm in rms]
            if verb not in ANSWERS or not parts:
                raise KeyError(verb)
            return None, verb, parts
        except (KeyError, ValueError) as error:
            raise self._session.coordinator.not_understood(words, to) from error

    def _make(self, verb: str, parts: Sequence[Part]) -> list[Code | None]:
        coordinator = self._session.coordinator
        if verb == "commit":
            # Before a database hears of it.
            self._session.note_decision(self._gtrid, [part.xid for part in parts])
            self.fate = Outcome.COMMITTED
        elif verb in ("prepare", "commit-at-once"):
            # What nobody would end isn't begun.
            coordinator.see_up()
            self.fate = Outcome.UNKNOWN if verb == "commit-at-once" else self.fate
        answers = make_all(verb, parts)
        if verb == "prepare" and all(code in (Code.OK, Code.RDONLY) for code in answers):
            # Unless the coordinator never hears of it.
            coordinator.see_up()
            self.fate = None
        elif verb == "commit":
            odd = [(part, code) for part, code in zip(parts, answers) if code not in NOT_ODD]
            self._odd = {part.line.rm.number: ODD.get(code, Code.HEURRB) for part, code in odd if code is not None}
        elif verb == "commit-at-once" and answers[0] is not None:
            self.fate = Outcome.COMMITTED if answers[0] is Code.OK else Outcome.ROLLED_BACK
        return answers
