"""Waits for databases that end: a connection whose answer doesn't come in time is cut off, whoever waits for it."""

from __future__ import annotations

import os
import select
import socket
import threading
import time
import weakref

#: How often the watch looks, in seconds.
TICK = 0.1


class Wire:
    """The way to a database, beside the module that uses it: it sees whether the other side is still there, and cuts the way off. It
    has a descriptor of its own, so that it never meets another file that came to have the same number."""

    def __init__(self, descriptor: int):
        self._socket: socket.socket | None = socket.socket(fileno=os.dup(descriptor))
        self._poll = select.poll()
        self._poll.register(self._socket, select.POLLIN)
        self._lock = threading.Lock()
        #: The moment of the monotonic clock when what is under way has had its time. None if nothing is.
        self.due: float | None = None
        #: The moment when the branch that is at work has had its time, whether or not something is under way: it is cut off then, so
        #: that the database lets its locks go. None if there is no such branch.
        self.limit: float | None = None
        #: Whether it was cut off.
        self.is_cut = False
        WATCH.add(self)

    def is_there(self) -> bool:
        """Whether the other side has said nothing while it wasn't asked: an end is what it would say."""
        with self._lock:
            return self._socket is not None and not self.is_cut and not self._poll.poll(0)

    def cut(self) -> None:
        """Ends the way at once: whoever waits for an answer on it is told that it is lost."""
        with self._lock:
            if self._socket is not None:
                self.is_cut = True
                try:
                    self._socket.shutdown(socket.SHUT_RDWR)
                except OSError:
                    # It has ended already.
                    pass

    def close(self) -> None:
        """Lets the descriptor go."""
        with self._lock:
            it, self._socket = self._socket, None
            if it is not None:
                it.close()


class Watch:
    """A thread that cuts off the wires that are due. It is started as it is first needed, also in a process that was forked off."""

    def __init__(self) -> None:
        self._lock = threading.Lock()
        self._wires: weakref.WeakSet[Wire] = weakref.WeakSet()
        self._process: int | None = None

    def add(self, wire: Wire) -> None:
        """Looks at a wire from now on, as long as it is there."""
        with self._lock:
            self._wires.add(wire)
            if self._process != os.getpid():
                self._process = os.getpid()
                threading.Thread(target=self._look_on, name="garterfossil watch", daemon=True).start()

    def _look_on(self) -> None:
        while True:
            time.sleep(TICK)
            with self._lock:
                wires = list(self._wires)
            now = time.monotonic()
            for wire in wires:
                due, limit = wire.due, wire.limit
                if due is not None and now >= due:
                    wire.due = None
                    wire.cut()
                elif limit is not None and now >= limit:
                    wire.limit = None
                    wire.cut()


WATCH = Watch()


def _after_fork() -> None:
    """Another thread may have held the lock. The wires are the parent's."""
    global WATCH
    WATCH = Watch()


os.register_at_fork(after_in_child=_after_fork)
