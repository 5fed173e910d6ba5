"""Whoever ends, beside the program, what transactions have left: for each database a thread that recovers it, as long as something is due
there."""

from __future__ import annotations

import threading
import time
from collections.abc import Callable
from typing import TYPE_CHECKING

from .errors import CoordinatorGone
from .logger import log
from .recovery import attempt
from .resource_manager import GLANCE, ResourceManager

if TYPE_CHECKING:
    from .session import Session

#: A recovery that couldn't be done is tried again after so many seconds.
RECOVERY_PAUSE = 1.0
#: So many seconds after the last commit the coordinator is asked what is due, by which rows leave the log that no branch needs.
IDLE = 1.0


class Keeper:
    """The recoveries of a session. A database that is silent, or lists a branch that can't be ended now, holds up its own recovery
    alone."""

    def __init__(self, session: Session):
        self._session = session
        self._lock = threading.Lock()
        # By database, the thread that recovers it, and since when.
        self._working: dict[int, tuple[threading.Thread, float]] = {}
        self._is_over = False
        # When a transaction was last committed, and whether a thread waits until the session is idle after it.
        self._committed = 0.0
        self._is_idle_awaited = False
        # Ends the pauses.
        self._stop = threading.Event()

    def see_to(self, rm: ResourceManager, patience: float = GLANCE) -> None:
        """Sees to it that the database is recovered, if something is due there, and waits for that,
        or for the recovery that is under way, until so many seconds after its beginning."""
        if not rm.is_recovery_due and rm.number not in self._working:
            return
        with self._lock:
            if self._is_over or not rm.is_recovery_due and rm.number not in self._working:
                return
            if rm.number not in self._working:
                thread = _started(rm.label, self._work, rm)
                if thread is None:
                    return
                self._working[rm.number] = thread, time.monotonic()
            thread, begun = self._working[rm.number]
        left = begun + patience - time.monotonic()
        if left > 0:
            thread.join(left)

    def _work(self, rm: ResourceManager) -> None:
        try:
            while not self._stop.is_set() and not self._session.coordinator.is_gone and self._is_due(rm):
                if not rm.can_be_reached() or self._stop.is_set() or attempt(self._session, rm) is not None:
                    self._stop.wait(RECOVERY_PAUSE)
        finally:
            with self._lock:
                self._working.pop(rm.number, None)

    def _is_due(self, rm: ResourceManager) -> bool:
        """Whether something is due. If not, its thread is no longer one that works on it, as soon as that is said."""
        with self._lock:
            if not rm.is_recovery_due:
                del self._working[rm.number]
            return rm.is_recovery_due

    def note_commit(self) -> None:
        """A transaction is committed. That its branches are is told with what follows soon, by which its row leaves the log; else an idle
        session tells it."""
        self._committed = time.monotonic()
        if not self._is_idle_awaited:
            with self._lock:
                if not self._is_idle_awaited and not self._is_over:
                    self._is_idle_awaited = _started("idle", self._ask_when_idle) is not None

    def _ask_when_idle(self) -> None:
        while True:
            with self._lock:
                left = self._committed + IDLE - time.monotonic()
                self._is_idle_awaited = left > 0
            if left <= 0:
                break
            if self._stop.wait(left):
                return
        try:
            self._session.coordinator.ask("due")
        except CoordinatorGone as error:
            # The next session finds the row.
            log.warning("%s", error)

    def finish(self) -> None:
        """Lets no recovery begin any more."""
        with self._lock:
            self._is_over = True
        self._stop.set()


def _started(name: str, work: Callable[..., None], *words: object) -> threading.Thread | None:
    """A thread that works on something. None if there is none to be had now, as at the interpreter's end: whoever comes next asks again."""
    thread = threading.Thread(target=work, args=words, name=f"garterfossil {name}", daemon=True)
    try:
        thread.start()
    except RuntimeError:
        return None
    return thread
