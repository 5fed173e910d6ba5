"""The transaction in whose block a thread or a task is, and what is called before it is committed."""

import asyncio
import contextlib
import contextvars
import os
import threading
import unittest
from concurrent.futures import ThreadPoolExecutor

from garterfossil import NestedTransaction, Outcome, RolledBack, TransactionOver, XaError

from .case import Case


class Current(Case):
    def test_the_transaction_in_whose_block_the_thread_is(self):
        with self.manager() as xa:
            self.assertIsNone(xa.current)
            with xa.transaction() as t:
                self.assertIs(xa.current, t)
                seen = []
                thread = threading.Thread(target=lambda: seen.append(xa.current))
                thread.start()
                thread.join()
                self.assertEqual(seen, [None])
                with xa.transaction(independent=True) as inner:
                    self.assertIs(xa.current, inner)
                self.assertIs(xa.current, t)
            self.assertIsNone(xa.current)

    def test_a_block_that_fails_is_left_as_well(self):
        with self.manager() as xa:
            with self.assertRaises(KeyError):
                with xa.transaction():
                    raise KeyError
            self.assertIsNone(xa.current)


class Contexts(Case):
    """What is current belongs to who entered the block, and not to the thread that happened to run that."""

    def steps(self, *steps):
        """Does each step on another thread, in a copy of the context, as a web framework does a dependency and its endpoint."""
        done = []
        for step in steps:
            with ThreadPoolExecutor(1) as pool:
                done.append(pool.submit(contextvars.copy_context().run, step).result())
        return done

    def test_a_block_that_is_entered_and_left_on_other_threads_leaves_them_without_one(self):
        pool = ThreadPoolExecutor(1)
        self.addCleanup(pool.shutdown)
        with self.manager() as xa:
            block = xa.transaction()
            t = pool.submit(contextvars.copy_context().run, block.__enter__).result()
            # The thread that entered it serves another request meanwhile.
            self.assertIsNone(pool.submit(contextvars.copy_context().run, lambda: xa.current).result())
            with self.assertRaisesRegex(TransactionOver, "no transaction here"):
                pool.submit(contextvars.copy_context().run, xa.require_current).result()
            other = xa.transaction()
            pool.submit(contextvars.copy_context().run, other.__enter__).result()
            t[0].execute("take")
            t[1].execute("give")
            self.steps(lambda: other.__exit__(None, None, None))
            self.steps(lambda: block.__exit__(None, None, None))
            self.assertIs(t.outcome, Outcome.COMMITTED)

    def test_work_in_a_transaction_that_another_thread_began(self):
        with self.manager() as xa:
            block = xa.transaction()
            t, = self.steps(block.__enter__)

            def endpoint():
                with xa.within(t) as mine:
                    self.assertIs(mine, t)
                    self.assertIs(xa.require_current(), t)
                    xa.current[0].execute("take")
                self.assertIsNone(xa.current)

            self.steps(endpoint, lambda: block.__exit__(None, None, None))
            self.assertIs(t.outcome, Outcome.COMMITTED)
            with self.assertRaises(TransactionOver):
                with xa.within(t):
                    self.fail("it is over")
        self.assertEqual(self.written(), (["take"], []))

    def test_tasks_of_one_thread_have_a_transaction_each(self):
        async def move(xa, word):
            with xa.transaction() as t:
                t[0].execute(word)
                await asyncio.sleep(0.01)
                self.assertIs(xa.current, t)
                t[1].execute(word)

        async def all_of(xa):
            await asyncio.gather(move(xa, "one"), move(xa, "two"))
            self.assertIsNone(xa.current)

        with self.manager() as xa:
            asyncio.run(all_of(xa))
        self.assertEqual([sorted(words) for words in self.written()], [["one", "two"], ["one", "two"]])

    def test_a_task_that_was_started_within_the_block_is_refused(self):
        async def other(xa):
            self.assertIsNone(xa.current)
            with self.assertRaisesRegex(TransactionOver, "within"):
                xa.require_current()

        async def outer(xa):
            with xa.transaction():
                await asyncio.create_task(other(xa))

        with self.manager() as xa:
            asyncio.run(outer(xa))

    def test_within_a_block_there_is_no_other_one_and_no_close(self):
        with self.manager() as xa, xa.transaction() as t, xa.within(t):
            with self.assertRaises(NestedTransaction):
                with xa.transaction():
                    self.fail("it is nested")
            with self.assertRaises(XaError):
                xa.close()

    def test_one_block_in_two_threads_is_refused(self):
        with self.manager() as xa:
            block = xa.transaction()
            with block as t:
                t[0].execute("take")
                with ThreadPoolExecutor(1) as pool, self.assertRaisesRegex(XaError, "entered before"):
                    pool.submit(block.__enter__).result()
                t[1].execute("give")
            with self.assertRaisesRegex(XaError, "entered before"):
                block.__enter__()
        self.assertEqual(self.written(), (["take"], ["give"]))


class Forks(Case):
    """A process that was forked off in a block does nothing to the transaction, however it leaves the block."""

    def in_child(self, body):
        """What a child that was forked off in a block met, and what the parent's transaction came to."""
        reader, writer = os.pipe()
        with self.manager() as xa:
            try:
                with xa.transaction() as t:
                    t[0].execute("take")
                    child = os.fork()
                    if child == 0:
                        body(t)
                    else:
                        os.waitpid(child, 0)
                        t[1].execute("give")
            except BaseException as error:
                if child:
                    raise
                os.write(writer, type(error).__name__.encode())
            finally:
                if child == 0:
                    os._exit(0)
            os.close(writer)
            with contextlib.closing(os.fdopen(reader)) as it:
                met = it.read()
        self.assertIs(t.outcome, Outcome.COMMITTED)
        self.assertEqual(self.written(), (["take"], ["give"]))
        return met

    def test_that_leaves_by_an_exception(self):
        def body(t):
            raise SystemExit

        self.assertEqual(self.in_child(body), "SystemExit")

    def test_that_leaves_at_the_end(self):
        self.assertEqual(self.in_child(lambda t: None), "TransactionOver")

    def test_that_works_in_it(self):
        self.assertEqual(self.in_child(lambda t: t[0].execute("once more")), "TransactionOver")


class BeforeCommit(Case):
    def looked(self, error, raised):
        with self.manager() as xa:
            with self.assertRaises(raised):
                with xa.transaction() as t:
                    t[0].execute("take")
                    t[1].execute("give")
                    t.before_commit(self.raises(error))
            self.assertIs(t.outcome, Outcome.ROLLED_BACK)
        self.assertEqual(self.written(), ([], []))

    def raises(self, error):
        def look():
            raise error

        return look

    def test_an_objection_rolls_back(self):
        self.looked(XaError("no"), RolledBack)

    def test_any_other_exception_rolls_back_and_is_raised(self):
        self.looked(KeyError("no"), KeyError)

    def test_it_is_not_called_before_a_rollback(self):
        called = []
        with self.manager() as xa, self.assertRaises(KeyError):
            with xa.transaction() as t:
                t.before_commit(lambda: called.append(1))
                t[0].execute("take")
                raise KeyError
        self.assertEqual(called, [])

    def test_it_may_work(self):
        with self.manager() as xa:
            with xa.transaction() as t:
                t.before_commit(lambda: t[1].execute("give"))
                t[0].execute("take")
        self.assertEqual(self.written(), (["take"], ["give"]))


if __name__ == "__main__":
    unittest.main()
