"""The threads of control of a session, lent out, and their lines to the databases."""

from __future__ import annotations

import collections
import contextlib
import re
import threading
import time
from collections.abc import Callable, Iterator, Sequence

from .adapters.base import Connection
from .coordinator import Coordinator, Reply
from .errors import Overdue
from .logger import log
from .resource_manager import ResourceManager

#: Whoever waits looks after so many seconds whether he is still waited for.
LOOK = 0.2
#: How a reply ends that tells a number's next transaction.
NEXT = re.compile(r" next ([0-9a-f]{32})\Z")


class Line:
    """The line of a thread to a resource manager, and the connection that it goes over."""

    def __init__(self, rm: ResourceManager):
        self.rm = rm
        self.connection: Connection | None = None

    def make_ready(self) -> Connection:
        """Its connection, a new one if it has none. Raises ConnectionLost if the database can't be
        reached."""
        if self.connection is None:
            self.connection = self.rm.connect()
        return self.connection

    def lose(self) -> None:
        """Gives the connection up: nobody knows what became of what was under way on it."""
        self._leave(self.rm.drop)

    def see_there(self) -> None:
        """Gives the connection up if the database has ended it while nothing was done on it."""
        if self.connection is not None and not self.connection.is_there():
            log.info("%s has ended a connection while it was idle", self.rm.label)
            self.lose()

    def let_go(self, is_last: bool) -> None:
        """A transaction is over on the line. A branch that it left there, as after an interrupt, is
        lost. What it has changed in the session, no other one meets; and in a coordinator's session
        that is over there is none."""
        if is_last:
            self.close()
        elif self.connection is not None and self.connection.has_branch:
            self.lose()
        elif self.connection is not None and self.connection.is_changed:
            self._leave(self.rm.release)

    def close(self) -> None:
        """Closes the connection, in a session that is over."""
        self._leave(lambda connection: connection.close())

    def _leave(self, end: Callable[[Connection], None]) -> None:
        connection, self.connection = self.connection, None
        if connection is not None:
            end(connection)


class Thread:
    """A thread of control: it has one transaction at a time, and lines to the databases. Which thread of Python has it doesn't matter.

    To the coordinator it is several threads, which it takes by turns: so what it has done with the last one needn't be told before the
    next one goes on, and the name of its next transaction is known mostly before it is asked for."""

    def __init__(self, numbers: Sequence[int], lines: list[Line]):
        self.lines = lines
        #: The transaction that is open.
        self.gtrid: str | None = None
        # By which numbers the coordinator knows it, the next one first; and the replies that tell the next transactions of these.
        self._numbers: collections.deque[int] = collections.deque(numbers)
        self._next: dict[int, Reply] = {}

    @property
    def number(self) -> int:
        """The number with which it moves."""
        return self._numbers[0]

    def begin(self, coordinator: Coordinator) -> str:
        """A transaction begins: its name. Raises NotNow or CoordinatorGone."""
        for line in self.lines:
            line.see_there()
        coordinator.see_up()
        number = self.number
        reply = self._next.pop(number, None) or coordinator.post(f"start {number}", number, is_asked=True)
        words = coordinator.wait(reply)
        found = NEXT.search(words)
        if found is None:
            raise coordinator.not_understood(words, reply.move)
        self.gtrid = found.group(1)
        return self.gtrid

    def end(self, reply: Reply) -> None:
        """Its transaction has ended; this reply tells the number's next one."""
        self._next[self.number] = reply
        self._numbers.rotate()

    def let_go(self, is_last: bool) -> None:
        """Nobody has it any more: in a session that is over for the last time."""
        self.gtrid = None
        for line in self.lines:
            line.let_go(is_last)


class Threads:
    """The threads of a session: each is lent to one transaction at a time, or all of them to who ends the session."""

    def __init__(self, all_of_them: Sequence[Thread]):
        self.all_of_them = all_of_them
        self._free = list(reversed(all_of_them))
        self._change = threading.Condition()
        self._whole_is_wanted = False
        #: How many wait for one.
        self.waiting = 0

    def take(self, until: float, is_given_up: Callable[[], bool] = lambda: False) -> Thread:
        """A thread that is free. Waits for one until this moment of the monotonic clock, or until
        nobody wants it any more, and then raises Overdue."""
        with self._change:
            self.waiting += 1
            try:
                while not self._change.wait_for(self._has_one, min(LOOK, until - time.monotonic())):
                    if is_given_up() or time.monotonic() >= until:
                        raise Overdue("all threads of the coordinator are in use")
            finally:
                self.waiting -= 1
            return self._free.pop()

    def _has_one(self) -> bool:
        return bool(self._free) and not self._whole_is_wanted

    def give_back(self, thread: Thread) -> None:
        """The thread is free again."""
        with self._change:
            self._free.append(thread)
            self._change.notify_all()

    @contextlib.contextmanager
    def all(self, until: float) -> Iterator[None]:
        """All threads at once: no new one is lent meanwhile, and those that are out are waited for.
        Raises Overdue at this moment."""
        with self._change:
            self._wait(lambda: not self._whole_is_wanted, until)
            self._whole_is_wanted = True
            try:
                self._wait(lambda: len(self._free) == len(self.all_of_them), until)
            except BaseException:
                self._let_go()
                raise
        try:
            yield
        finally:
            with self._change:
                self._let_go()

    def _let_go(self) -> None:
        self._whole_is_wanted = False
        self._change.notify_all()

    def _wait(self, is_so: Callable[[], object], until: float) -> None:
        if not self._change.wait_for(is_so, until - time.monotonic()):
            raise Overdue("all threads of the coordinator are in use")
