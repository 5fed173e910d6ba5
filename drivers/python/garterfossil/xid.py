"""The identifiers of branches (XA's XID), and the calls by which prepared ones are ended."""

from __future__ import annotations

import functools
from dataclasses import dataclass
from typing import NamedTuple

#: The format of the coordinator's own identifiers.
FORMAT = 7


@dataclass(frozen=True, order=True)
class Xid:
    """The identifier of a branch. As text it is `<format>:<gtrid>:<bqual>`, both parts in lower case hexadecimal."""

    format: int
    gtrid: bytes
    bqual: bytes

    def __post_init__(self) -> None:
        if self.format < 0 or not 1 <= len(self.gtrid) <= 64 or not 1 <= len(self.bqual) <= 64:
            raise ValueError(f"no identifier of a branch: {self}")

    @classmethod
    def of(cls, manager: str, gtrid: str, thread: int, rm: int) -> Xid:
        """The branch at a resource manager of a transaction that a thread of a manager began."""
        return cls(FORMAT, manager.encode("ascii") + bytes.fromhex(gtrid), thread.to_bytes(4, "big") + rm.to_bytes(4, "big"))

    @classmethod
    def parse(cls, text: str) -> Xid:
        """The identifier that a text spells. Raises ValueError where it spells none, or not as `str` does."""
        parts = text.split(":")
        try:
            xid = cls(int(parts[0]), bytes.fromhex(parts[1]), bytes.fromhex(parts[2]))
        except (ValueError, IndexError):
            xid = None
        if xid is None or str(xid) != text:
            raise ValueError(f"no identifier of a branch, as in 7:{16 * '00'}:{8 * '00'}: {text}")
        return xid

    @functools.cached_property
    def _text(self) -> str:
        return f"{self.format}:{self.gtrid.hex()}:{self.bqual.hex()}"

    def __str__(self) -> str:
        return self._text

    @property
    def transaction(self) -> str:
        """The transaction, as requests name it: 32 hexadecimal digits for one of the coordinator's own. The coordinator's name, if
        it has one, stands in front of these in the identifier."""
        return self.gtrid[-16:].hex()

    @property
    def incarnation(self) -> int:
        """The session of its manager that began the transaction."""
        return int.from_bytes(self.gtrid[-16:-8], "big")

    @property
    def rm(self) -> int:
        """The number of its resource manager."""
        return int.from_bytes(self.bqual[4:], "big")

    @property
    def manager(self) -> str:
        """The name of its manager."""
        return self.gtrid[:-16].decode("ascii", "replace")


class Call(NamedTuple):
    """A call of XA on a prepared branch: xa_commit, xa_rollback or xa_forget."""

    name: str
    xid: Xid

    def __str__(self) -> str:
        return f"{self.name} {self.xid}"

    @property
    def verb(self) -> str:
        """What databases call it in SQL: COMMIT for xa_commit."""
        return self.name.partition("_")[2].upper()
