"""Steps that nothing is to interrupt. A signal handler may raise an exception in the main thread between any two steps of the
interpreter, as for Ctrl-C or a time limit: so what the main thread asks for is done on a thread beside it, where that can't happen, to
its end."""

from __future__ import annotations

import _thread
import contextvars
import os
import queue
import signal
import sys
import threading
from collections.abc import Callable, Sequence
from typing import Any, TypeVar, cast

T = TypeVar("T")

#: So many threads that have nothing to do are kept.
MOST_IDLE = 16


class _Job:
    """A step, and what came of it."""

    __slots__ = ("step", "context", "is_done", "is_over", "result", "error")

    def __init__(self, step: Callable[[], Any]):
        self.step = step
        self.context = contextvars.copy_context()
        #: Held until it is done.
        self.is_done = threading.Lock()
        self.is_done.acquire()
        self.is_over = False
        self.result: Any = None
        self.error: BaseException | None = None

    def do(self) -> None:
        """Does it."""
        try:
            self.result = self.context.run(self.step)
        except BaseException as error:
            self.error = error
        self.is_over = True
        self.is_done.release()


class Aside:
    """The threads beside the main one. What they are given goes on to its end, whoever waits for it."""

    def __init__(self) -> None:
        self._jobs: queue.SimpleQueue[_Job] = queue.SimpleQueue()
        self._lock = threading.Lock()
        self._idle = 0

    def do(self, step: Callable[[], T], may_leave: bool = False) -> T:
        """Does a step, and waits for its end. An exception that a signal handler raises meanwhile is raised after that, or at once if who
        asks may leave. (Other threads than the main one do it themselves.)"""
        if threading.get_ident() != threading.main_thread().ident or _is_of_gevent():
            return step()
        job = _Job(step)
        try:
            self.give(job)
        except RuntimeError:
            # There is no thread to be had any more, as at the interpreter's end.
            return step()
        interrupt: BaseException | None = None
        # (An exception may come after the lock as well, when it is taken already.)
        while not job.is_over:
            try:
                job.is_done.acquire()
            except BaseException as error:
                if may_leave:
                    raise
                interrupt = error
        failed, job.error = job.error, None
        if interrupt is not None:
            raise interrupt from failed
        if failed is not None:
            try:
                raise failed
            finally:
                del failed
        return cast(T, job.result)

    def post(self, step: Callable[[], Any]) -> None:
        """Has a step done, for which nobody waits."""
        self.give(_Job(step))

    def give(self, job: _Job) -> None:
        """Gives a job to a thread that has nothing to do, or to a new one."""
        if self._idle <= self._jobs.qsize():
            _thread.start_new_thread(self._work, ())
        self._jobs.put(job)

    def _work(self) -> None:
        threading.current_thread().name = "garterfossil"
        while True:
            with self._lock:
                if self._idle >= MOST_IDLE and self._jobs.empty():
                    return
                self._idle += 1
            job = self._jobs.get()
            with self._lock:
                self._idle -= 1
            job.do()
            del job


def _is_of_gevent() -> bool:
    """Whether threads are gevent's, which has no main thread that is interrupted so."""
    monkey = sys.modules.get("gevent.monkey")
    return monkey is not None and bool(monkey.is_module_patched("threading"))


ASIDE = Aside()


def _after_fork() -> None:
    """Its threads are the parent's."""
    global ASIDE
    ASIDE = Aside()


def aside(step: Callable[[], T], may_leave: bool = False) -> T:
    """Does a step beside the main thread, if that asks for it (`Aside.do`)."""
    return ASIDE.do(step, may_leave)


def side_by_side(steps: Sequence[Callable[[], T]]) -> list[T]:
    """Does steps at the same time, all but the first on threads of their own, and waits for all of
    them: what each gives. (Threads of gevent take turns.)"""
    if len(steps) < 2 or _is_of_gevent():
        return [step() for step in steps]
    jobs = [_Job(step) for step in steps[1:]]
    for job in jobs:
        try:
            ASIDE.give(job)
        except RuntimeError:
            # There is no thread to be had any more, as at the interpreter's end.
            job.do()
    try:
        first = steps[0]()
    finally:
        for job in jobs:
            while not job.is_over:
                job.is_done.acquire()
    for job in jobs:
        if job.error is not None:
            raise job.error
    return [first, *(cast(T, job.result) for job in jobs)]


def is_interrupt(error: BaseException) -> bool:
    """Whether an exception may have come between any two steps: no error of a program or a database, but one that says that something
    else is to be done now."""
    if not isinstance(error, Exception) or isinstance(error, (RecursionError, MemoryError)):
        return True
    handlers = [signal.getsignal(number) for number in signal.valid_signals()]
    codes = {getattr(getattr(handler, "__func__", handler), "__code__", None) for handler in handlers} - {None}
    trace = error.__traceback__
    while trace is not None and trace.tb_frame.f_code not in codes:
        trace = trace.tb_next
    return trace is not None


os.register_at_fork(after_in_child=_after_fork)
