"""The return codes of XA that may be the answer to a call (C193, section 4.5)."""

from __future__ import annotations

import enum


class Code(enum.IntEnum):
    """A return code of XA. Three of XA's are no answers and have no name here: XAER_RMERR, XAER_RMFAIL and XAER_INVAL."""

    OK = 0
    #: The branch only read, and is over.
    RDONLY = 3
    #: The call is to be made again later.
    RETRY = 4
    #: The resource manager ended a part of the branch each way by itself.
    HEURMIX = 5
    #: The resource manager rolled the branch back by itself.
    HEURRB = 6
    #: The resource manager committed the branch by itself.
    HEURCOM = 7
    #: The resource manager may have ended the branch by itself.
    HEURHAZ = 8
    #: The branch is rolled back: no reason is told.
    RBROLLBACK = 100
    #: .. the communication within the resource manager failed.
    RBCOMMFAIL = 101
    #: .. it was in a deadlock.
    RBDEADLOCK = 102
    #: .. it broke a constraint.
    RBINTEGRITY = 103
    #: .. for a reason that has no code of its own.
    RBOTHER = 104
    #: .. an error of protocol within the resource manager.
    RBPROTO = 105
    #: .. it took too long.
    RBTIMEOUT = 106
    #: .. for a moment's reason: the work may be tried again.
    RBTRANSIENT = 107
    #: There is no such branch.
    NOTA = -4
    #: The call doesn't fit the branch's state.
    PROTO = -6
    #: There is a branch of this identifier already.
    DUPID = -8

    @property
    def is_rollback(self) -> bool:
        """Whether the code says that the branch is rolled back, and why."""
        return Code.RBROLLBACK <= self <= Code.RBTRANSIENT

    @property
    def is_heuristic(self) -> bool:
        """Whether the code says that the resource manager ended the branch by itself."""
        return Code.HEURMIX <= self <= Code.HEURHAZ
