"""Exceptions that a signal handler raises, in the main thread, between any two lines: none of them leaves a hang, a thread that is
never given back, or a branch that stays prepared."""

import dis
import gc
import os
import signal
import sys
import time
import unittest

import garterfossil
from garterfossil import Outcome
from garterfossil.aside import is_interrupt

from .case import Case
from .test_keeper import wait_for

FOLDER = os.path.dirname(garterfossil.__file__) + os.sep


class SoftTimeLimit(Exception):
    """As that of Celery: an exception of the usual kind."""


#: The instructions of CPython after which a signal's handler runs.
CHECKED = ("RESUME", "CALL", "CALL_FUNCTION_EX", "CALL_KW", "JUMP_BACKWARD")


class Tracer:
    """Raises an exception at the moment of a number, of those at which a signal's handler may run in the driver, in the main thread."""

    def __init__(self, at, error):
        self.at, self.error, self.count, self.where = at, error, 0, ""
        self.before = {}

    def trace(self, frame, event, _):
        if not frame.f_code.co_filename.startswith(FOLDER):
            return None
        frame.f_trace_opcodes = True
        if event == "opcode":
            now = dis.opname[frame.f_code.co_code[frame.f_lasti]]
            before, self.before[frame] = self.before.get(frame), now
            if before in CHECKED:
                self.count += 1
                if self.count == self.at:
                    self.where = f"{os.path.basename(frame.f_code.co_filename)}:{frame.f_lineno}"
                    raise self.error()
        return self.trace

    def __enter__(self):
        sys.settrace(self.trace)
        return self

    def __exit__(self, *_):
        sys.settrace(None)
        self.before.clear()


@unittest.skipIf(sys.version_info < (3, 11), "it isn't known where an earlier interpreter calls handlers")
class Interrupts(Case):
    def interrupted(self, work, at, error):
        """Does work that is interrupted at the moment of a number. Whether it came to that, and where."""
        tracer = Tracer(at, error)
        try:
            with tracer:
                work()
        except (KeyboardInterrupt, SoftTimeLimit, garterfossil.XaError):
            pass
        return tracer.count >= at, tracer.where

    def see_all_right(self, xa, where):
        """Sees that nothing is left, and that all threads can be used."""
        gc.collect()
        try:
            wait_for(lambda: not self.left.prepared and not self.right.prepared and xa.counts()["open"] == 0)
            wait_for(lambda: len(xa._session.threads._free) == 2)
        except AssertionError as error:
            raise AssertionError(f"at {where}: {error}") from None
        self.assertIsNone(xa.current, where)
        self.assertEqual(len(self.left.written), len(self.right.written), where)
        begun = time.monotonic()
        with xa.transaction() as outer, xa.transaction(independent=True) as inner:
            outer[0].execute("take")
            outer[1].execute("give")
            inner[0].execute("take")
            inner[1].execute("give")
        self.assertLess(time.monotonic() - begun, 15, where)

    def sweep(self, work, error):
        at = 1
        with self.manager(patience=5.0) as xa:
            while True:
                was_there, where = self.interrupted(lambda: work(xa), at, error)
                self.see_all_right(xa, where)
                if not was_there:
                    break
                at += 1
        self.assertGreater(at, 100)

    def test_in_a_transfer(self):
        self.sweep(self.move, KeyboardInterrupt)

    def test_an_exception_of_the_usual_kind_in_a_transfer_that_is_rolled_back(self):
        def work(xa):
            with xa.transaction() as t:
                t[0].execute("take")
                t[1].execute("give")
                raise SoftTimeLimit

        self.sweep(work, SoftTimeLimit)

    def test_a_transaction_in_one_database(self):
        def work(xa):
            with xa.transaction() as t:
                t[0].execute("take")
            with xa.transaction() as t:
                t[1].execute("give")

        # (Only what is left is looked at: the two are two transactions.)
        with self.manager(patience=5.0) as xa:
            at, was_there = 1, True
            while was_there:
                was_there, where = self.interrupted(lambda: work(xa), at, KeyboardInterrupt)
                gc.collect()
                wait_for(lambda: xa.counts()["open"] == 0 and len(xa._session.threads._free) == 2)
                at += 1

    def test_signals_at_random_moments(self):
        def interrupt(*_):
            raise SoftTimeLimit

        self.addCleanup(signal.signal, signal.SIGALRM, signal.signal(signal.SIGALRM, interrupt))
        self.addCleanup(signal.setitimer, signal.ITIMER_REAL, 0)
        met = 0
        with self.manager(patience=5.0) as xa:
            until = time.monotonic() + 3
            while time.monotonic() < until:
                try:
                    try:
                        signal.setitimer(signal.ITIMER_REAL, 0.0005 + 0.00001 * (met % 300))
                        self.move(xa)
                    finally:
                        signal.setitimer(signal.ITIMER_REAL, 0)
                except (SoftTimeLimit, garterfossil.XaError):
                    met += 1
            self.see_all_right(xa, "random moments")
        self.assertGreater(met, 20)

    def test_in_the_end_of_a_deep_recursion(self):
        def deep(xa, left):
            if left == 0:
                self.move(xa)
            else:
                deep(xa, left - 1)

        with self.manager(patience=5.0) as xa:
            deepest = sys.getrecursionlimit()
            for left in range(deepest - 120, deepest):
                try:
                    deep(xa, left)
                except (RecursionError, garterfossil.XaError):
                    pass
            self.see_all_right(xa, "recursion")

    def test_what_is_an_interrupt(self):
        def handler(*_):
            raise SoftTimeLimit

        self.addCleanup(signal.signal, signal.SIGUSR1, signal.signal(signal.SIGUSR1, handler))
        try:
            os.kill(os.getpid(), signal.SIGUSR1)
            time.sleep(1)
            self.fail("the handler wasn't called")
        except SoftTimeLimit as error:
            self.assertTrue(is_interrupt(error))
        try:
            raise SoftTimeLimit
        except SoftTimeLimit as error:
            self.assertFalse(is_interrupt(error))
        try:
            {}["key"]
        except KeyError as error:
            self.assertFalse(is_interrupt(error))
        self.assertTrue(is_interrupt(KeyboardInterrupt()))


class Waiting(Case):
    def test_who_is_interrupted_as_he_waits_for_a_thread_waits_no_longer(self):
        def interrupt(*_):
            raise SoftTimeLimit

        self.addCleanup(signal.signal, signal.SIGALRM, signal.signal(signal.SIGALRM, interrupt))
        self.addCleanup(signal.setitimer, signal.ITIMER_REAL, 0)
        with self.manager(threads=1, patience=20.0) as xa:
            with xa.transaction():
                for _ in range(5):
                    signal.setitimer(signal.ITIMER_REAL, 0.1)
                    with self.assertRaises(SoftTimeLimit):
                        xa.transaction(independent=True).__enter__()
                # Those that were given up don't wait for the thread as long as the patience.
                wait_for(lambda: not xa._session.threads.waiting)
            self.move(xa)
        self.assertEqual(self.written(), (["take"], ["give"]))


class Abandoned(Case):
    """Blocks that nobody leaves."""

    def test_a_generator_that_nobody_goes_on_with(self):
        with self.manager(threads=1, patience=2.0) as xa:

            def work():
                with xa.transaction() as t:
                    t[0].execute("take")
                    yield t

            generator = work()
            t = next(generator)
            self.assertIs(xa.current, t)
            del generator
            gc.collect()
            self.move(xa)
            self.assertIs(t.outcome, Outcome.ROLLED_BACK)
        self.assertEqual(self.written(), (["take"], ["give"]))

    def test_a_block_that_is_entered_and_forgotten(self):
        with self.manager(threads=1, patience=2.0) as xa:
            t = xa.transaction().__enter__()
            wait_for(lambda: t.is_let_go)
            self.assertIsNone(xa.current)
            self.move(xa)
            self.assertEqual(xa.counts()["rolled_back"], 1)


if __name__ == "__main__":
    unittest.main()
