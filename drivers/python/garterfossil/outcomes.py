"""How transactions ended, as far as that was told, or is found later."""

from __future__ import annotations

import enum
import threading
from collections import Counter
from typing import TYPE_CHECKING

if TYPE_CHECKING:
    from .coordinator import Coordinator
    from .transaction import Transaction

#: So many outcomes that were told are kept in mind.
MOST_TOLD = 10000


class Outcome(enum.Enum):
    """How a transaction stands."""

    OPEN = "open"
    COMMITTED = "committed"
    ROLLED_BACK = "rolled back"
    UNKNOWN = "unknown"


#: As the coordinator tells them.
TOLD = {"committed": Outcome.COMMITTED, "rolled-back": Outcome.ROLLED_BACK, "unknown": Outcome.UNKNOWN}


def _fate(coordinator: Coordinator, gtrid: str) -> Outcome:
    words = coordinator.ask(f"fate {gtrid}")
    if words not in TOLD:
        raise coordinator.not_understood(words, f"fate {gtrid}")
    return TOLD[words]


class Outcomes:
    """How transactions ended: how many each way, the outcomes that were told, and those that a
    later session tells: of a transaction that was being decided as its session ended the very next
    one knows how it ended."""

    def __init__(self) -> None:
        self._lock = threading.Lock()
        self._asked: set[str] = set()
        self._found: dict[str, Outcome] = {}
        # What the last transactions were told, the oldest first.
        self._told: dict[str, Outcome] = {}
        # How many began, and ended each way; of how many a branch ended otherwise, or was found so by a recovery; for how many
        # seconds they were open; and for which reasons they were rolled back.
        self._counts = Counter(begun=0, committed=0, rolled_back=0, unknown=0, heuristic=0)
        self._seconds = 0.0
        self._codes: Counter[str] = Counter()

    def begin(self) -> None:
        """A transaction has begun."""
        with self._lock:
            self._counts["begun"] += 1

    def end(self, transaction: Transaction, seconds: float) -> None:
        """It was told how it ended, and was open for so many seconds."""
        outcome = transaction.outcome
        with self._lock:
            self._counts[outcome.name.lower()] += 1
            self._counts["heuristic"] += transaction.is_heuristic
            self._seconds += seconds
            if outcome is Outcome.ROLLED_BACK:
                self._codes.update(code.name for code in transaction.codes)
            if outcome is not Outcome.UNKNOWN:
                self._told[transaction.gtrid] = outcome
                if len(self._told) > MOST_TOLD:
                    del self._told[next(iter(self._told))]

    def note_odd(self) -> None:
        """A recovery found a branch that somebody else had ended, of a transaction that was told
        its outcome before."""
        with self._lock:
            self._counts["heuristic"] += 1

    def counts(self) -> dict[str, float]:
        """The counts by their names."""
        with self._lock:
            ended = sum(self._counts[how] for how in ("committed", "rolled_back", "unknown"))
            return {**self._counts, "open": self._counts["begun"] - ended, "seconds": self._seconds}

    def rolled_back(self) -> dict[str, int]:
        """How many were rolled back for each reason that has a code."""
        with self._lock:
            return dict(self._codes)

    def ask(self, gtrid: str) -> None:
        """The session of the transaction has ended while it decided that."""
        with self._lock:
            self._asked.add(gtrid)

    def find(self, coordinator: Coordinator) -> None:
        """A session has begun: how those ended that the one before was deciding."""
        with self._lock:
            asked = set(self._asked)
        found = {gtrid: _fate(coordinator, gtrid) for gtrid in asked}
        with self._lock:
            self._asked -= asked
            self._found.update(found)

    def of(self, gtrid: str, coordinator: Coordinator) -> Outcome:
        """How it ended, if that was found. Of one of another run of the program only that it is
        committed, as long as the log says so."""
        # A thread may have asked since the session began.
        self.find(coordinator)
        with self._lock:
            known = self._found.get(gtrid) or self._told.get(gtrid)
        if known is not None:
            return known
        return Outcome.COMMITTED if coordinator.ask(f"fate {gtrid}") == "committed" else Outcome.UNKNOWN
