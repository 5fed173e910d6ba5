"""The recovery of a database: what is looked at before the coordinator ends what is in doubt there,
and what becomes of that."""

from __future__ import annotations

import time
from collections.abc import Iterable
from typing import TYPE_CHECKING

from .adapters.base import Connection
from .codes import Code
from .errors import ConnectionLost, CoordinatorGone, Overdue, SetupError, Unanswered, XaError
from .hands import answer_of, word_of
from .logger import log
from .resource_manager import GLANCE, ResourceManager
from .xid import Call, Xid

if TYPE_CHECKING:
    from .session import Session

#: So many identifiers are told at a time, and a call that has no answer now is made again for so many seconds.
PAGE, STUCK, PAUSE = 32, 1.0, 0.05


def attempt(session: Session, rm: ResourceManager) -> XaError | None:
    """Recovers a database, if that can be done now. Else why not, which is logged."""
    try:
        recover(session, rm)
        return None
    except SetupError as error:
        rm.say_once(f"the recovery is put off: {error}")
        return error
    except XaError as error:
        if not isinstance(error, Overdue):
            log.warning("the recovery of %s is put off: %s", rm.label, error)
        return error


def recover(session: Session, rm: ResourceManager) -> None:
    """Ends what is in doubt at a database: what it lists of earlier sessions, and what is owed
    there. Transactions go on meanwhile. Raises ConnectionLost where it can't be done now."""
    with rm.is_recovered:
        connection = rm.connect()
        try:
            rm.see_no_strays(connection)
            # What is noted from now on is for the next recovery.
            rm.is_recovery_due = False
            put_off, owed = rm.put_off_now(), session.owed_at(rm)
            listed, forgotten = look(session, rm, connection)
            hands = Recovery(session, rm, connection, listed - put_off - forgotten)
            end = hands.run()
            if end.startswith("strange "):
                raise stop(session, f"{rm.label} lists {end.split(' ')[1]}, which no session over this log began")
            if end == "later":
                if isinstance(hands.error, SetupError):
                    raise hands.error
                raise ConnectionLost(f"{rm.label} can't be recovered now: {hands.error}")
        except BaseException:
            rm.is_recovery_due = True
            rm.drop(connection)
            raise
        rm.release(connection)
        if end == "recovered":
            session.settle(owed)
        if forgotten or put_off or end != "recovered":
            rm.is_recovery_due = True
        if forgotten:
            begin_anew(session, rm, forgotten)
        if put_off or end != "recovered":
            raise ConnectionLost(f"{rm.label} has a branch that can't be ended now: {hands.error or sorted(put_off)[0]}")


class Recovery:
    """The calls that the coordinator tells for what is in doubt at a database, over a connection of its own. Of what is listed
    there it hears."""

    def __init__(self, session: Session, rm: ResourceManager, connection: Connection, listed: Iterable[Xid]):
        self._session, self._rm, self._connection, self._listed = session, rm, connection, sorted(listed)
        #: Why something can't be ended now.
        self.error: Exception | None = None
        # Branches of decided transactions that aren't there any more.
        self._missing: list[Xid] = []

    def run(self) -> str:
        """Does what the coordinator tells, until it says how that ended."""
        ask, number = self._session.coordinator.ask, self._rm.number
        reply = ask(f"recover {number}")
        while True:
            verb, *words = reply.split(" ")
            if verb == "recover":
                page, self._listed = self._listed[:PAGE], self._listed[PAGE:]
                reply = ask(" ".join([f"page {number}", *map(str, page)]))
            elif verb in ("xa_commit", "xa_rollback", "xa_forget"):
                reply = ask(f"end {number} {word_of(self._made(self._call(reply)))}")
            elif verb in ("recovered", "later") or verb == "strange" and words:
                if self._missing:
                    how = "%s has %d branches no more that are decided to commit, as %s: an earlier session has ended them, or somebody"
                    log.warning(how, self._rm.label, len(self._missing), self._missing[0])
                return reply
            else:
                raise self._session.coordinator.not_understood(reply, f"a recovery of {number}")

    def _call(self, reply: str) -> Call:
        verb, _, xid = reply.partition(" ")
        try:
            return Call(verb, Xid.parse(xid))
        except ValueError as error:
            raise self._session.coordinator.not_understood(reply, f"a recovery of {self._rm.number}") from error

    def _made(self, call: Call) -> Code | None:
        """Makes a call: how it is answered, or None. One that can't be made now is made again for a
        moment; then a commit is put off, and a rollback left out for a while, so that they hold up
        no others."""
        until = time.monotonic() + STUCK
        verb = call.name[3:]
        while True:
            try:
                code = answer_of(self._connection, verb, call.xid)
                log.info("recovery of %s: %s answered %s", self._rm.label, call, code.name)
                self._note(call, code)
                return code
            except Exception as error:
                self.error = error
                if not isinstance(error, Unanswered) or verb != "commit" and time.monotonic() >= until:
                    self._rm.put_off(call.xid)
                    return None
                if time.monotonic() >= until:
                    return Code.RETRY
            time.sleep(PAUSE)

    def _note(self, call: Call, code: Code) -> None:
        label = self._rm.label
        if code.is_heuristic or call.name == "xa_commit" and code.is_rollback:
            log.error("%s: %s answered %s: somebody has ended it by hand; compare the databases", label, call, code.name)
            self._session.outcomes.note_odd()
        elif call.name == "xa_commit" and code is Code.NOTA:
            self._missing.append(call.xid)
        elif call.name == "xa_rollback" and code is not Code.NOTA:
            self._rm.note_undone(call.xid)
        if code is not Code.RETRY:
            self._session.settle([call.xid])


def begin_anew(session: Session, rm: ResourceManager, forgotten: set[Xid]) -> None:
    """Ends the session, once no transaction is open, since the database has forgotten in a crash
    that it rolled branches back: to the next session they are an earlier one's, and may stand
    there."""
    with session.threads.all(time.monotonic() + GLANCE):
        session.is_to_be_followed = True
        session.coordinator.quit()
    raise CoordinatorGone(f"the session is ended: {rm.label} has forgotten the rollback of {sorted(forgotten)[0]}")


def look(session: Session, rm: ResourceManager, connection: Connection) -> tuple[set[Xid], set[Xid]]:
    """What the database lists, and what of that it has forgotten in a crash, as MariaDB does: that
    this session rolled it back. Raises SetupError for what only somebody can explain, and is to
    look at: that it is over, by all that the database answered before."""
    listed = _listed_at(session, connection)
    # A transaction that has a branch by now, and isn't open any more after the list, is over; what
    # is listed once more stays.
    over = _over(session, rm, listed)
    if over:
        over &= _listed_at(session, connection)
        over -= session.owed_at(rm)
    if session.coordinator.is_gone:
        # What its transactions left is for the next one: nobody has ended it.
        raise CoordinatorGone("the coordinator is gone")
    earlier = {xid for xid in listed if xid.incarnation < session.coordinator.incarnation}
    of_mirror = sorted(xid for xid in listed if xid.transaction in session.unknown_to_log)
    if of_mirror:
        raise SetupError(f"{rm.label} lists {of_mirror[0]}, which the mirror has decided, and of which this log knows nothing: it is older")
    odd = sorted({*over - rm.undone, *(xid for xid in earlier if session.was_over(xid))})
    if odd:
        by_hand = f". Its transaction was committed, so by hand: {rm.by_hand(odd[0])}" if session.committed.has(odd[0].transaction) else ""
        raise stop(session, f"{rm.label} lists {odd[0]} as prepared, which is over: it isn't as it was, or the log isn't{by_hand}")
    return listed, over | earlier & rm.undone


def _listed_at(session: Session, connection: Connection) -> set[Xid]:
    """The manager's branches that the database lists."""
    with connection.timed(session.patience):
        return set(connection.listed())


def _over(session: Session, rm: ResourceManager, listed: set[Xid]) -> set[Xid]:
    mine = {xid for xid in listed if xid.incarnation == session.coordinator.incarnation}
    live = session.live() if mine else set()
    return {xid for xid in mine - session.owed_at(rm) if xid.transaction not in live}


def stop(session: Session, why: str) -> SetupError:
    """Ends the session, and has none begin after it, in this run of the program or another one,
    until somebody has looked: the next one would roll back what this one doesn't understand."""
    try:
        session.identities.shut(why)
    finally:
        log.error("%s: nothing is done any more until somebody has looked", why)
        session.coordinator.quit()
    return SetupError(why)


def see_not_later(rm: ResourceManager, incarnation: int, path: str) -> None:
    """Sees, before a session, that a database lists no branch of a session that the log at a path
    hasn't had. Raises SetupError: no coordinator is started then, so that it is refused however
    often the program is started again."""
    later = [xid for xid in rm.listed or () if xid.incarnation > incarnation]
    if not later:
        return
    if incarnation == 0:
        raise SetupError(
            f"the log is new, and {rm.label} lists {len(later)} branches of an earlier one, as {later[0]}: put that log back."
            " What another log has decided would be rolled back"
        )
    raise SetupError(
        f"the log {path} has had {incarnation} sessions, and {rm.label} lists {len(later)} branches of later ones, as {later[0]}: it is"
        " older than they are, or another one. Put the right one back; what it had decided would be rolled back. If it is lost, end these"
        " branches by hand first, after a look at all databases"
    )
