"""Which transactions were decided to commit lately. Once all databases have acknowledged one, its
row leaves the log. If one of them lists a branch of it later, that database was put back to an
earlier moment, as by a standby that was promoted and lacked the last one; or the log was."""

from __future__ import annotations

import contextlib
import os

from .errors import SetupError
from .logger import log

#: What is added to the log's own path. The file keeps so many transactions, each in so many bytes
#: at a place by its number: those of a session take the places of those of earlier ones.
SUFFIX, MOST, BYTES = "-committed", 65536, 16


class Committed:
    """The transactions of a log, in the file PATH-committed. It outlives the program, but isn't
    synced: what it lacks after a failure of its machine is ended as the log says."""

    def __init__(self, path: str, is_kept: bool):
        """Those of the log at a path: of another one the file may have been, unless it is to be
        kept."""
        how = os.O_RDWR | os.O_CREAT | os.O_CLOEXEC | os.O_NOFOLLOW | (0 if is_kept else os.O_TRUNC)
        try:
            self._file = os.open(path + SUFFIX, how, 0o600)
            if not is_kept:
                # Those of another log, which had the same numbers, don't come back.
                os.fsync(self._file)
        except OSError as error:
            raise SetupError(f"{path}{SUFFIX} can't be written: {error.strerror}") from error
        with contextlib.suppress(OSError):
            # What root makes, as by `recover`, the log's own user goes on with.
            owner = os.stat(path)
            os.fchown(self._file, owner.st_uid, owner.st_gid)

    def __del__(self) -> None:
        if hasattr(self, "_file"):
            os.close(self._file)

    def add(self, gtrid: str) -> None:
        """It is decided that the transaction commits."""
        try:
            os.pwrite(self._file, bytes.fromhex(gtrid), _place(gtrid))
        except OSError as error:
            log.warning("what is committed can't be noted: %s", error)

    def has(self, gtrid: str) -> bool:
        """Whether the transaction was decided to commit, as far as that is known still."""
        return os.pread(self._file, BYTES, _place(gtrid)) == bytes.fromhex(gtrid)


def was_committed(path: str, gtrid: str) -> bool:
    """The same of the log at a path, for whoever only looks. Raises SetupError."""
    try:
        with open(path + SUFFIX, "rb") as it:
            it.seek(_place(gtrid))
            return it.read(BYTES) == bytes.fromhex(gtrid)
    except FileNotFoundError:
        return False
    except OSError as error:
        raise SetupError(f"{path}{SUFFIX} can't be read: {error.strerror}") from error


def _place(gtrid: str) -> int:
    return int(gtrid[16:], 16) % MOST * BYTES
