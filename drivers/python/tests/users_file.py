"""What a program of a user may look like. It is checked by `mypy --strict`, and never run."""

from typing import List, Optional, Tuple

from garterfossil import (
    Branch,
    Code,
    ConnectionLost,
    HeuristicEnd,
    Outcome,
    OutcomeUnknown,
    Result,
    RolledBack,
    Transaction,
    TransactionManager,
    manager_of,
)
from garterfossil.adapters import mariadb, mysqlclient, postgresql, psycopg
from garterfossil.adapters.base import Connection, Database, Place
from garterfossil.sqlalchemy import create_engine


def managers() -> List[TransactionManager]:
    by_place = [postgresql.PostgreSQL("dbname=bank", lock_timeout=2.5), mariadb.MariaDB(user="bank")]
    by_name = {"bank": psycopg.PostgreSQL("dbname=bank"), "shop": mysqlclient.MariaDB(user="bank")}
    return [
        TransactionManager(by_place, "decisions.db"),
        TransactionManager(by_name, "decisions.db", name="shop-1", threads=4, patience=2.5, timeout=None),
        manager_of("bank.toml"),
    ]


def take(branch: Branch, amount: int) -> Optional[int]:
    branch.execute("UPDATE account SET balance = balance - %s", [amount])
    branch.execute("UPDATE account SET balance = balance - %(amount)s", {"amount": amount})
    with branch.cursor() as cursor:
        cursor.executemany("INSERT INTO account VALUES (%s)", [(1,), (2,)])
    result: Result = branch.execute("SELECT balance FROM account")
    rows: List[Tuple[object, ...]] = [row for row in result]
    return len(rows) if result.rowcount else None


def transfer(xa: TransactionManager) -> Outcome:
    try:
        with xa.transaction(timeout=5, isolation="serializable") as t:
            take(t[0], 10)
            take(t["shop"], -10)
        gtrid: str = t.gtrid
        assert xa.current is None and len(gtrid) == 32
    except RolledBack as error:
        return Outcome.OPEN if error.is_worth_trying_again and error.code is not Code.RBINTEGRITY else Outcome.ROLLED_BACK
    except (OutcomeUnknown, HeuristicEnd, ConnectionLost):
        return xa.outcome(gtrid)
    return t.outcome


def work(t: Transaction) -> str:
    t.before_commit(lambda: None)
    t[0].execute("SELECT 1")
    return t.gtrid


def runs(xa: TransactionManager) -> str:
    counts = xa.counts()
    return xa.run(work, tries=3) + str(counts["begun"])


async def transfer_async(xa: TransactionManager) -> Outcome:
    async with xa.transaction_async(timeout=5) as t:
        result = await t[0].execute("SELECT 1")
        gtrid = await t.run(work)
        assert result.rowcount == 1 and gtrid == t.gtrid
    return t.outcome


def engines(xa: TransactionManager) -> None:
    for name in ("bank", "shop"):
        create_engine(xa, name, echo=True).dispose()


class Own(Database):
    """An adapter of one's own."""

    def connect(self, place: Place = Place()) -> Connection:
        raise ConnectionLost("there is none")

    def end_connections(self, kept: object, place: Place = Place()) -> int:
        return 0
