"""Transactions for asyncio. The modules for databases block, so each transaction has a thread of its own, and what is awaited is
done there: the loop is never held up."""

from __future__ import annotations

import asyncio
import contextlib
from collections.abc import AsyncIterator, Callable
from concurrent.futures import ThreadPoolExecutor
from types import TracebackType
from typing import Any, TypeVar

from .adapters.base import Parameters, Result
from .manager import TransactionManager
from .outcomes import Outcome
from .transaction import Transaction

T = TypeVar("T")


class AsyncBranch:
    """The part of a transaction at one database, for asyncio. It begins as it is first used."""

    def __init__(self, transaction: AsyncTransaction, database: int | str):
        self._transaction = transaction
        self._database = database

    async def execute(self, statement: str, parameters: Parameters = ()) -> Result:
        """As `Branch.execute`."""
        return await self._transaction.run(lambda t: t[self._database].execute(statement, parameters))


class AsyncTransaction:
    """A global transaction, for asyncio. One task uses it."""

    def __init__(self, transaction: Transaction, thread: _Thread):
        self._transaction = transaction
        self._thread = thread

    def __getitem__(self, database: int | str) -> AsyncBranch:
        """The branch at a database, by its place among those of the manager, from 0, or by its name."""
        return AsyncBranch(self, database)

    @property
    def gtrid(self) -> str:
        """Its name: 32 hexadecimal digits."""
        return self._transaction.gtrid

    @property
    def outcome(self) -> Outcome:
        """How it stands."""
        return self._transaction.outcome

    async def run(self, work: Callable[[Transaction], T]) -> T:
        """Calls a function with the transaction on the transaction's own thread, so that it may block: for cursors, and for
        SQLAlchemy. If the task is cancelled meanwhile, the function goes on to its end, and the transaction is rolled back
        after it."""
        return await self._thread.run(lambda: work(self._transaction))


class _Thread:
    """A thread that does one thing after the other."""

    def __init__(self) -> None:
        self._executor = ThreadPoolExecutor(1, thread_name_prefix="garterfossil")

    def run(self, step: Callable[[], T]) -> asyncio.Future[T]:
        return asyncio.get_running_loop().run_in_executor(self._executor, step)

    async def run_to_the_end(self, step: Callable[[], T]) -> T:
        """Does a step, and waits for its end also if the task is cancelled, which is raised then."""
        done = self.run(step)
        cancelled: asyncio.CancelledError | None = None
        while not done.done():
            try:
                await asyncio.wait([done])
            except asyncio.CancelledError as error:
                cancelled = error
        if cancelled is not None:
            raise cancelled from done.exception()
        return done.result()

    def stop(self) -> None:
        self._executor.shutdown(wait=False)


@contextlib.asynccontextmanager
async def transaction(manager: TransactionManager, **options: Any) -> AsyncIterator[AsyncTransaction]:
    """A transaction for an `async with` block: as `TransactionManager.transaction`, of which it takes the keywords and raises the
    exceptions. A block that is cancelled is rolled back. A cancellation that comes during the commit is raised after it: then
    `outcome` says how it ended."""
    thread = _Thread()
    block = manager.transaction(**options)

    def leave(kind: type[BaseException] | None, error: BaseException | None, trace: TracebackType | None) -> bool:
        return bool(block.__exit__(kind, error, trace))

    try:
        try:
            begun = await thread.run_to_the_end(block.__enter__)
        except asyncio.CancelledError as error:
            if error.__cause__ is None:
                # It has begun all the same.
                cancelled = error
                with contextlib.suppress(asyncio.CancelledError):
                    await thread.run_to_the_end(lambda: leave(type(cancelled), cancelled, None))
            raise
        try:
            yield AsyncTransaction(begun, thread)
        except BaseException as error:
            left = error
            if not await thread.run_to_the_end(lambda: leave(type(left), left, left.__traceback__)):
                raise
        else:
            await thread.run_to_the_end(lambda: leave(None, None, None))
    finally:
        thread.stop()
