"""Transactions over several databases, coordinated by `xatm serve`: see docs/SERVE.md of Garterfossil."""

from .adapters.base import Result
from .branch import Branch, BranchConnection, BranchCursor
from .codes import Code
from .configuration import manager_of
from .errors import (
    ConnectionLost,
    CoordinatorGone,
    EndRefused,
    HeuristicEnd,
    LogInUse,
    NestedTransaction,
    OutcomeUnknown,
    Overdue,
    RolledBack,
    SetupError,
    TimedOut,
    TransactionOver,
    XaError,
)
from .manager import TransactionManager
from .outcomes import Outcome
from .transaction import Transaction
from .xid import Xid

#: That of the program `xatm` that it fits.
__version__ = "1.0.0"

__all__ = [
    "Branch",
    "BranchConnection",
    "BranchCursor",
    "Code",
    "ConnectionLost",
    "CoordinatorGone",
    "EndRefused",
    "HeuristicEnd",
    "LogInUse",
    "NestedTransaction",
    "Outcome",
    "OutcomeUnknown",
    "Overdue",
    "Result",
    "RolledBack",
    "SetupError",
    "TimedOut",
    "Transaction",
    "TransactionManager",
    "TransactionOver",
    "XaError",
    "Xid",
    "__version__",
    "manager_of",
]
