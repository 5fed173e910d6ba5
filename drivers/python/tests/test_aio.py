"""Transactions of asyncio, over the stand-ins."""

import asyncio
import os
import sys
import tempfile
import threading
import unittest

from garterfossil import Outcome, RolledBack, TransactionManager
from garterfossil.aio import transaction

from .fake_database import FakeDatabase, WrongStatement


class OnPurpose(Exception):
    pass


class AsyncTransactions(unittest.IsolatedAsyncioTestCase):
    def setUp(self):
        folder = tempfile.TemporaryDirectory()
        self.addCleanup(folder.cleanup)
        log = os.path.join(folder.name, "log")
        command = [sys.executable, os.path.join(os.path.dirname(__file__), "fake_coordinator.py"), log]
        self.databases = [FakeDatabase(), FakeDatabase()]
        self.xa = TransactionManager(self.databases, log, threads=2, patience=5.0, command=command)
        self.addCleanup(self.xa.close)

    @property
    def written(self):
        return [database.written for database in self.databases]

    async def test_a_block_that_ends_is_committed_at_both(self):
        async with self.xa.transaction_async() as t:
            await t[0].execute("take")
            await t[1].execute("give")
        self.assertIs(t.outcome, Outcome.COMMITTED)
        self.assertEqual(self.written, [["take"], ["give"]])

    async def test_an_exception_rolls_back(self):
        with self.assertRaises(OnPurpose):
            async with transaction(self.xa) as t:
                await t[0].execute("take")
                raise OnPurpose
        self.assertIs(t.outcome, Outcome.ROLLED_BACK)
        self.assertEqual(self.written, [[], []])

    async def test_an_error_of_a_statement_and_what_it_does_to_the_transaction(self):
        with self.assertRaises(RolledBack):
            async with transaction(self.xa) as t:
                with self.assertRaises(WrongStatement):
                    await t[0].execute("wrong")
        self.assertEqual(self.written, [[], []])

    async def test_a_function_that_blocks_is_called_on_the_thread_of_the_transaction(self):
        async with transaction(self.xa) as t:
            threads = [await t.run(lambda t: threading.get_ident()) for _ in range(2)]
            self.assertEqual((await t.run(lambda t: t[0].execute("take"))).rowcount, 1)
        self.assertEqual(len(set(threads)), 1)
        self.assertNotIn(threading.get_ident(), threads)
        self.assertEqual(self.written, [["take"], []])

    async def test_more_tasks_than_threads_and_the_loop_is_never_held_up(self):
        async def transfer(number):
            async with transaction(self.xa) as t:
                await t[0].execute(f"take {number}")
                await asyncio.sleep(0.01)
                await t[1].execute(f"give {number}")

        await asyncio.wait_for(asyncio.gather(*map(transfer, range(10))), 4.0)
        self.assertEqual([len(found) for found in self.written], [10, 10])

    async def test_a_cancelled_block_is_rolled_back_after_its_statement(self):
        begun, goes_on = threading.Event(), threading.Event()

        def work(t):
            t[0].execute("take")
            begun.set()
            goes_on.wait(5)
            t[1].execute("give")

        found = []

        async def block():
            async with transaction(self.xa) as t:
                found.append(t)
                await t.run(work)

        task = asyncio.ensure_future(block())
        await asyncio.get_running_loop().run_in_executor(None, begun.wait)
        task.cancel()
        await asyncio.sleep(0.05)
        self.assertFalse(task.done())
        goes_on.set()
        with self.assertRaises(asyncio.CancelledError):
            await task
        self.assertIs(found[0].outcome, Outcome.ROLLED_BACK)
        self.assertEqual(self.written, [[], []])

    async def test_a_cancellation_during_the_commit_is_raised_after_it(self):
        begun, goes_on, found = threading.Event(), threading.Event(), []

        def wait():
            begun.set()
            goes_on.wait(5)

        self.databases[0].before["prepare"] = wait

        async def block():
            async with transaction(self.xa) as t:
                found.append(t)
                await t[0].execute("take")
                await t[1].execute("give")

        task = asyncio.ensure_future(block())
        await asyncio.get_running_loop().run_in_executor(None, begun.wait)
        task.cancel()
        await asyncio.sleep(0.05)
        goes_on.set()
        with self.assertRaises(asyncio.CancelledError):
            await task
        self.assertIs(found[0].outcome, Outcome.COMMITTED)
        self.assertEqual(self.written, [["take"], ["give"]])

    async def test_a_cancellation_while_a_thread_is_waited_for_begins_nothing(self):
        async with transaction(self.xa), transaction(self.xa):
            task = asyncio.ensure_future(transaction(self.xa).__aenter__())
            await asyncio.sleep(0.05)
            task.cancel()
            await asyncio.sleep(0.05)
        with self.assertRaises(asyncio.CancelledError):
            await task
        async with transaction(self.xa), transaction(self.xa):
            pass


if __name__ == "__main__":
    unittest.main()
