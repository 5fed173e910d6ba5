"""The command `python -m garterfossil`: what is in doubt, and how it is ended."""

from __future__ import annotations

import argparse
import contextlib
import logging
import sys
from collections.abc import Callable, Iterator, Mapping, Sequence
from typing import Any

from . import __version__
from .codes import Code
from .configuration import Configuration
from .coordinator import Coordinator, serve_command
from .doubt import (
    HELD,
    Listing,
    call_for,
    listings_of,
    logs_of,
    objection,
    place_of,
    settled_listings_of,
)
from .errors import LogInUse, SetupError, XaError
from .failover import fail_over
from .logs import Log, Names, logs_of_workers
from .metrics import Metric, in_json, in_prometheus
from .xid import Call, Xid

#: So many branches of another manager are shown.
MOST_SHOWN = 20

DESCRIPTION = """\
Shows what is in doubt in the databases of a transaction manager, and ends it.

FILE is of TOML and says what the manager is made of, as for garterfossil.manager_of:

  log = "/var/lib/bank/decisions.db"   # and, if they are given to TransactionManager: name, threads, patience, program

  [[database]]                         # a table for each database, in the order of the manager
  as = "bank"                          # its name, if the databases have names
  kind = "postgresql"                  # postgresql (psycopg2), psycopg, mariadb (PyMySQL), mysqlclient, or 'module:Class'
  dsn = "dbname=bank user=transfer"    # and whatever else that adapter takes"""


def main(words: Sequence[str]) -> int:
    """Does what the words ask. The status: 0; 1 if something is in doubt, or wasn't ended; 2 if it can't be done."""
    given = _parser().parse_args(words)
    logging.basicConfig(level=logging.INFO, format="%(levelname)s: %(message)s")
    try:
        configuration = Configuration.read(given.config)
        if given.does == "end":
            return _end_left(configuration, given) if given.left_by is not None else _end(configuration, given.branch, given.yes)
        if given.does == "failover":
            return _fail_over(configuration, given)
        if given.does == "recover":
            _recover(configuration)
        return _status(configuration, getattr(given, "format", "text"))
    except XaError as error:
        print(f"garterfossil: {error}", file=sys.stderr)
        return 2


def _parser() -> argparse.ArgumentParser:
    raw = argparse.RawDescriptionHelpFormatter
    parser = argparse.ArgumentParser(prog="python -m garterfossil", description=DESCRIPTION, formatter_class=raw)
    parser.add_argument("--version", action="version", version=f"garterfossil {__version__}")
    does = parser.add_subparsers(dest="does", required=True)
    status = does.add_parser("status", help="show each branch in doubt, what it waits for and the statement that ends it; changes nothing")
    recover = does.add_parser("recover", help="do what a start of the manager does, and show what is left")
    end = does.add_parser("end", help="end one branch as the log says, after a question")
    failover = does.add_parser("failover", help="make the log anew from the mirror, where the machine that had it is lost")
    for one in (status, recover, end, failover):
        one.add_argument("--config", required=True, metavar="FILE", help="what the manager is made of")
    status.add_argument("--format", choices=["text", "json", "prometheus"], default="text", help="how it is printed")
    end.add_argument("branch", metavar="BRANCH", help="its identifier, as status shows it")
    end.add_argument("--yes", action="store_true", help="don't ask")
    end.add_argument("--left-by", metavar="NAME", help="it is of another manager, of this name, which is gone for good with its log")
    end.add_argument("--outcome", choices=["commit", "rollback"], help="how: with --left-by no log says it")
    failover.add_argument("--name", help="only the manager of this name, of those that the mirror has")
    return parser


# ** status


def _recover(configuration: Configuration) -> None:
    """Starts and closes the manager over each log that no program has."""
    for path in logs_of_workers(configuration.log):
        try:
            configuration.manager(path).close()
        except LogInUse as error:
            if path == configuration.log:
                raise
            logging.getLogger("garterfossil").info("%s", error)


def _status(configuration: Configuration, form: str) -> int:
    logs = logs_of(configuration)
    found = settled_listings_of(configuration, logs)
    if form == "json":
        print(in_json(_shown(configuration, logs, found)))
    elif form == "prometheus":
        print(in_prometheus(_metrics(configuration, logs, found)), end="")
    else:
        for line in _lines(configuration, logs, found):
            print(line)
    return 1 if any(one.own or one.fault for one in found) else 0


def _shown(configuration: Configuration, logs: Mapping[str, Log], found: list[Listing]) -> dict[str, Any]:
    """The same as objects, for programs."""
    by_manager = {log.manager: log for log in logs.values()}

    def branch(one: Listing, xid: Xid) -> dict[str, Any]:
        log = by_manager[xid.manager]
        waits_for = None if objection(log, xid) is not None else call_for(log, xid)
        return {"branch": str(xid), "seconds": one.ages.get(xid), "waits_for": waits_for}

    return {
        "logs": [
            {
                "path": path,
                "manager": log.manager or None,
                "decided": sorted(log.decisions),
                "heuristics": list(log.heuristics),
                "incarnation": log.incarnation or None,
                "fault": log.fault,
            }
            for path, log in logs.items()
        ],
        "databases": [
            {
                "number": rm,
                "name": configuration.names[rm] if configuration.names else None,
                "fault": one.fault,
                "in_doubt": [branch(one, xid) for xid in one.own],
                "of_others": {name: sum(xid.manager == name for xid in one.others) for name in (xid.manager for xid in one.others)},
            }
            for rm, one in enumerate(found)
        ],
    }


def _oldest(one: Listing) -> float:
    return max((one.ages.get(xid, 0.0) for xid in one.own), default=0.0)


def _metrics(configuration: Configuration, logs: Mapping[str, Log], found: list[Listing]) -> list[Metric]:
    """The same as numbers."""

    def at_each(value: Callable[[Listing], float]) -> list[tuple[dict[str, str], float]]:
        names = configuration.names or [str(rm) for rm in range(len(found))]
        return [({"database": name}, value(one)) for name, one in zip(names, found)]

    def of_each(value: Callable[[Log], float]) -> list[tuple[dict[str, str], float]]:
        return [({"log": path}, value(log)) for path, log in logs.items()]

    return [
        Metric("in_doubt", "Branches in doubt.", "gauge", at_each(lambda one: len(one.own))),
        Metric("in_doubt_seconds", "Since when the oldest is.", "gauge", at_each(_oldest)),
        Metric("of_others", "Branches of other managers.", "gauge", at_each(lambda one: len(one.others))),
        Metric("reachable", "1 if the database can be asked.", "gauge", at_each(lambda one: int(one.fault is None))),
        Metric("log_in_use", "1 while a program has the log.", "gauge", of_each(lambda log: int(log.fault == HELD))),
        Metric("log_decided", "Decisions in the log.", "gauge", of_each(lambda log: len(log.decisions))),
        Metric("log_heuristics", "Records of heuristic ends in the log.", "gauge", of_each(lambda log: len(log.heuristics))),
    ]


def _lines(configuration: Configuration, logs: Mapping[str, Log], found: list[Listing]) -> Iterator[str]:
    """What is in doubt, for a reader."""
    for path, log in logs.items():
        yield from _lines_of_log(path, log)
    by_manager = {log.manager: log for log in logs.values()}
    for rm, one in enumerate(found):
        yield f"database {rm}, {configuration.label(rm)}: {one.fault or f'{len(one.own)} in doubt'}"
        for xid in one.own:
            yield from _lines_of(configuration, by_manager[xid.manager], rm, xid, one.ages.get(xid))
        for name in sorted({xid.manager for xid in one.others}):
            yield from _lines_of_others(name, [xid for xid in one.others if xid.manager == name], one)
    decided = frozenset(gtrid for log in logs.values() for gtrid in log.decisions)
    left = decided - {xid.transaction for one in found for xid in one.own}
    if left and any(one.fault for one in found):
        yield f"{len(left)} of the decisions have no branch at the databases that answered"
    elif left:
        yield f"{len(left)} of the decisions have no branch any more: the next start takes their rows away"


def _lines_of_log(path: str, log: Log) -> Iterator[str]:
    whose = f"log {path}, of the manager {log.manager}" if log.manager else f"log {path}"
    if log.fault == HELD:
        yield f"{whose}: {HELD}: it ends its branches by itself, so stop it before anything is ended by hand"
    else:
        yield f"{whose}: {log.fault or f'{len(log.decisions)} decided, {len(log.heuristics)} ended by a database itself'}"
    yield from (f"  {line}: compare it with the other databases (docs/LOG.md)" for line in log.heuristics)


def _lines_of_others(name: str, xids: list[Xid], one: Listing) -> Iterator[str]:
    """Of another manager: whose, how many, and how old. It ends them, unless it is gone."""
    ages = [one.ages[xid] for xid in xids if xid in one.ages]
    old = f", the oldest for {_time(max(ages))}" if ages else ""
    whose = f"the manager {name}" if name else "a manager without a name"
    yield f"  {len(xids)} of {whose}{old}: it ends them, so leave them alone"
    yield f"      (if it is gone for good, and its log with it: end --left-by {name or repr('')} --outcome commit|rollback BRANCH)"
    yield from (f"      {xid}" for xid in xids[:MOST_SHOWN])


def _time(seconds: float) -> str:
    for unit, length in (("days", 86400), ("hours", 3600), ("minutes", 60)):
        if seconds >= 2 * length:
            return f"{seconds / length:.0f} {unit}"
    return f"{seconds:.0f} seconds"


def _lines_of(configuration: Configuration, log: Log, rm: int, xid: Xid, age: float | None) -> Iterator[str]:
    why_not = objection(log, xid)
    since = f"; prepared for {_time(age)}" if age is not None else ""
    if log.fault == HELD:
        yield f"  {xid}: the program that has the log is to end it{since}"
        return
    if why_not is not None:
        yield f"  {xid}: what it waits for isn't known: {why_not}{since}"
        return
    name = call_for(log, xid)
    why = "it is decided to commit" if name == "xa_commit" else "it isn't decided to commit"
    yield f"  {xid}: waits for {name}, since {why}{since}; by hand:"
    yield f"      {configuration.databases[rm].by_hand(Call(name, xid))}"


# ** end


def _end(configuration: Configuration, text: str, is_sure: bool) -> int:
    """Ends a branch as the log says. The log is held meanwhile, so that no coordinator decides otherwise."""
    logs = logs_of(configuration)
    path, log = _log_of(logs, _branch(text))
    if log.fault is not None:
        raise SetupError(f"the log {path} can't be read, so nothing is ended: {log.fault}")
    rm, xid = _database_and_branch(configuration, text, [log.manager])
    call = Call(call_for(log, xid), xid)
    print(f"database {rm}: {configuration.databases[rm].by_hand(call)}")
    with _held(configuration, path, log) as incarnation:
        if xid.incarnation >= incarnation:
            raise SetupError(f"the log {path} is older than the branch {xid}, so nothing is ended: put the right one back")
        if incarnation != log.incarnation + 1:
            raise SetupError(f"another program has had the log {path} since it was looked at, so nothing is ended: look again")
        return _end_at(configuration, rm, call, is_sure)


def _end_left(configuration: Configuration, given: argparse.Namespace) -> int:
    """Ends a branch of a manager that is gone for good, and its log with it, as an operator says."""
    if given.outcome is None:
        raise SetupError("--left-by needs --outcome commit or --outcome rollback: no log says how it ends")
    own = {log.manager for log in logs_of(configuration).values()}
    if given.left_by in own:
        raise SetupError(f"{given.left_by or 'the manager without a name'} is the manager of this file: its log says how its branches end")
    rm, xid = _database_and_branch(configuration, given.branch, [given.left_by])
    call = Call(f"xa_{given.outcome}", xid)
    print(f"database {rm}: {configuration.databases[rm].by_hand(call)}")
    print("All branches of a transaction are to end alike: look at what the other databases hold of it, and that its manager runs nowhere.")
    return _end_at(configuration, rm, call, given.yes)


def _end_at(configuration: Configuration, rm: int, call: Call, is_sure: bool) -> int:
    if not is_sure and not _agrees():
        print("nothing was done")
        return 1
    place = place_of(configuration, call.xid.manager, rm)
    database = configuration.databases[rm]
    with contextlib.closing(database.connect(place)) as connection, connection.timed(place.patience):
        code = connection.do(call.name[3:], call.xid)
    print("it is ended" if code is Code.OK else f"it was over already: {code.name}")
    return 0


def _branch(text: str) -> Xid:
    try:
        return Xid.parse(text)
    except ValueError as error:
        raise SetupError(str(error)) from error


def _log_of(logs: Mapping[str, Log], xid: Xid) -> tuple[str, Log]:
    """The log of the manager of a branch: the only one, or the worker's."""
    for path, log in logs.items():
        if len(logs) == 1 or log.manager == xid.manager:
            return path, log
    raise SetupError(f"none of the logs is that of {xid.manager or 'a manager without a name'}, whose branch {xid} is")


def _database_and_branch(configuration: Configuration, text: str, managers: list[str]) -> tuple[int, Xid]:
    """The branch of this identifier, and the database that lists it."""
    xid = _branch(text)
    found = listings_of(configuration, managers)
    for rm, one in enumerate(found):
        if xid in one.own:
            return rm, xid
    faults = "".join(f"; database {rm}: {one.fault}" for rm, one in enumerate(found) if one.fault)
    raise SetupError(f"no database lists a branch {xid} of this manager{faults}")


def _agrees() -> bool:
    try:
        return input("End it so? (yes/no) ").strip().lower() == "yes"
    except EOFError:
        return False


@contextlib.contextmanager
def _held(configuration: Configuration, path: str, log: Log) -> Iterator[int]:
    """Keeps the log for itself, by a coordinator that is asked for nothing: its incarnation, which is later than those of all branches."""
    words = serve_command(configuration.program, path, log.names or Names(), threads=1, databases=len(configuration.databases))
    coordinator = Coordinator.start(words, 1.0)
    try:
        yield coordinator.incarnation
    finally:
        coordinator.quit()


# ** failover


def _fail_over(configuration: Configuration, given: argparse.Namespace) -> int:
    """Makes the logs of managers anew whose machine is lost, from what the mirror holds."""
    for path, name, count in fail_over(configuration, given.name):
        print(f"log {path}, of the manager {name}: made, with {count} decisions to commit")
    return 0
