"""What is in doubt: the branches that databases list, and what the coordinator's log says of them."""

from __future__ import annotations

import os
import time
from collections.abc import Iterable, Mapping
from contextlib import closing
from dataclasses import dataclass, field, replace

from .adapters.base import Database, Place
from .committed import was_committed
from .configuration import Configuration
from .errors import XaError
from .logs import Log, Names, logs_of_workers
from .xid import FORMAT, Xid

HELD = "a program has it"
#: A branch of a program that is at work counts as in doubt after so many seconds; and how long one look at a database is after another.
YOUNG, PAUSE = 10.0, 0.3


def objection(log: Log, xid: Xid) -> str | None:
    """Why a log doesn't say how a branch of its manager ends, if so."""
    if log.fault is not None:
        return "the log can't be read"
    if xid.incarnation > log.incarnation:
        return "the log is older than the branch, so it is another one, or a copy"
    return None


def call_for(log: Log, xid: Xid) -> str:
    """The call that a branch waits for, unless there is an objection: the log decides. If its row has left the log, and a database was put
    back since, what was committed lately does. Raises SetupError."""
    gtrid = xid.transaction
    return "xa_commit" if gtrid in log.decisions or was_committed(log.path, gtrid) else "xa_rollback"


def _log_at(configuration: Configuration, path: str) -> Log:
    """What is in the log at a path, or why nobody knows. Of one that isn't there only the name is known that is given."""
    try:
        found = Log.at(configuration.program, path) if os.path.exists(path) else Log(fault="there is no such file")
    except XaError as error:
        found = Log(fault=str(error))
    return replace(found, names=found.names or Names(configuration.name or ""), fault=HELD if found.is_in_use else found.fault)


@dataclass(frozen=True)
class Listing:
    """What a database lists: the manager's branches there, and those of others; or why nobody knows."""

    own: tuple[Xid, ...] = ()
    others: tuple[Xid, ...] = ()
    fault: str | None = None
    #: For how many seconds branches have been prepared, as far as the database tells.
    ages: dict[Xid, float] = field(default_factory=dict)

    @classmethod
    def at(cls, database: Database, places: list[Place]) -> Listing:
        """What a database lists that has these places at managers."""
        try:
            with closing(database.connect(places[0])) as connection, connection.timed(places[0].patience):
                found, ages = connection.all_listed(), connection.ages()
        except XaError as error:
            return cls(fault=str(error))
        # (A server may list the branches of other databases of the manager, too.)
        managers = {place.manager for place in places}
        others = [xid for xid in found if _is_a_managers(xid) and xid.manager not in managers]
        return cls(tuple(xid for xid in found if any(place.owns(xid) for place in places)), tuple(others), ages=ages)


def logs_of(configuration: Configuration) -> dict[str, Log]:
    """What is in the logs of a configuration, by their paths: in one, or in that of each worker that has had one."""
    return {path: _log_at(configuration, path) for path in logs_of_workers(configuration.log)}


def place_of(configuration: Configuration, manager: str, rm: int) -> Place:
    """The place of a database at the manager of this name."""
    return Place(manager, rm, patience=configuration.patience)


def listings_of(configuration: Configuration, managers: Iterable[str]) -> list[Listing]:
    """What each database lists, beside the managers of these names."""
    return [
        Listing.at(database, [place_of(configuration, manager, rm) for manager in managers])
        for rm, database in enumerate(configuration.databases)
    ]


def settled_listings_of(configuration: Configuration, logs: Mapping[str, Log], seconds: float = YOUNG) -> list[Listing]:
    """The same, without what a program that has its log is about to end: what stands between its votes and its decision is listed, too. A
    branch is left out unless it has been prepared for so many seconds: where the database doesn't tell since when, it is looked at for
    as long as that."""
    managers = [log.manager for log in logs.values()]
    busy = {log.manager for log in logs.values() if log.fault == HELD}
    begun = time.monotonic()
    found = listings_of(configuration, managers)
    while True:
        passed = time.monotonic() - begun
        ages = [{xid: max(passed, one.ages.get(xid, 0.0)) for xid in one.own if xid.manager in busy} for one in found]
        young = [{xid for xid, age in own.items() if age < seconds} for own in ages]
        if passed >= seconds or not any(young):
            return [replace(one, ages={**one.ages, **own}) for one, own in zip(found, ages)]
        time.sleep(PAUSE)
        again = listings_of(configuration, managers)
        # What has come since is younger.
        found = [replace(new, own=tuple(xid for xid in new.own if xid in old.own)) for old, new in zip(found, again)]


def _is_a_managers(xid: Xid) -> bool:
    """Whether a branch is one of a transaction manager of this kind."""
    return xid.format == FORMAT and len(xid.gtrid) >= 16 and len(xid.bqual) == 8
