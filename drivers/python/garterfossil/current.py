"""The transaction in whose block somebody is: a thread, a task of asyncio, or a greenlet."""

from __future__ import annotations

import contextvars
import sys
import threading
from typing import TYPE_CHECKING

if TYPE_CHECKING:
    from .manager import TransactionManager
    from .transaction import Transaction


class Entry:
    """A block that was entered: of which transaction, by whom, and within which other one."""

    __slots__ = ("manager", "transaction", "owner", "outer", "_is_left")

    def __init__(self, manager: TransactionManager, transaction: Transaction, outer: Entry | None):
        self.manager = manager
        self.transaction = transaction
        self.owner = owner()
        self.outer = outer
        self._is_left = False

    @property
    def is_left(self) -> bool:
        """Whether nobody is in the block any more. It may have been ended without having been left."""
        return self._is_left or self.transaction.is_let_go

    def leave(self) -> None:
        """The block is left."""
        self._is_left = True

    @property
    def is_mine(self) -> bool:
        """Whether who asks has entered it. A task or a thread that was started within the block has its context, and isn't that."""
        return self.owner == owner()


#: The innermost block of the context. A block that was left in another context may still stand here.
_INNERMOST: contextvars.ContextVar[Entry | None] = contextvars.ContextVar("garterfossil", default=None)


def owner() -> tuple[int, int]:
    """Who works now: the thread, and the task of asyncio if there is one."""
    # Without that module there is no task, and nobody pays for importing it.
    asyncio = sys.modules.get("asyncio")
    task = None
    if asyncio is not None:
        try:
            task = asyncio.current_task()
        except RuntimeError:
            # No loop runs in the thread.
            pass
    return threading.get_ident(), 0 if task is None else id(task)


def innermost(manager: TransactionManager) -> Entry | None:
    """The innermost block of a manager in the context, if it is in one."""
    entry = _INNERMOST.get()
    while entry is not None and (entry.is_left or entry.manager is not manager):
        entry = entry.outer
    return entry


def enter(manager: TransactionManager, transaction: Transaction) -> Entry:
    """A block is entered."""
    outer = _INNERMOST.get()
    while outer is not None and outer.is_left:
        outer = outer.outer
    entry = Entry(manager, transaction, outer)
    _INNERMOST.set(entry)
    return entry


def leave(entry: Entry) -> None:
    """A block is left, in whichever context: a web framework may enter a dependency in another one than it leaves it in."""
    entry.leave()
    if _INNERMOST.get() is entry:
        _INNERMOST.set(entry.outer)
