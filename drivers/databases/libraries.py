"""Stories over two databases by what Python's programs use: SQLAlchemy, asyncio, the command `python -m garterfossil` after a
driver was killed, and the examples of the driver's page. Each is looked at in the databases."""

import asyncio
import json
import logging
import os
import subprocess
import sys
import textwrap

import readme
from world import ACCOUNTS, TOP

from garterfossil import RolledBack

BOTH, NEITHER = [True, True], [False, False]
#: A driver that ends after its decision to commit, or before it.
CRASHES = """
    import os, sys
    from moments import before_a_move, behind_the_decision
    from world import World
    world = World.found(sys.argv[1])
    xa = world.manager(2)
    with xa.transaction() as t:
        for rm in (0, 1):
            t[rm].execute("INSERT INTO moved VALUES (%s, 1)", [t.gtrid])
        def ends():
            print(t.gtrid, flush=True)
            os._exit(1)
        if sys.argv[2] == "after":
            behind_the_decision(xa, ends)
        else:
            before_a_move(xa, "tell", ends)
"""


class Libraries:
    def __init__(self, world):
        self.world = world
        self.stories = self.wrong = 0
        world.prepare()

    def told(self, name, found, wanted):
        self.stories += 1
        self.wrong += found != wanted
        print(f"{'ok   ' if found == wanted else 'WRONG'} {name}: {found}", flush=True)

    def values(self, statement):
        """The first column of what each database has."""
        found = []
        for server in self.world.servers:
            connection = server.database().connect()
            found.append([row[0] for row in connection.run(statement).rows])
            connection.close()
        return found

    def holds(self, gtrid):
        return [gtrid in found for found in self.values("SELECT gtrid FROM moved")]

    # ** SQLAlchemy

    def sqlalchemy(self):
        try:
            import sqlalchemy
            from sqlalchemy import orm
        except ImportError:
            print("       SQLAlchemy isn't there")
            return
        from garterfossil.sqlalchemy import create_engine

        made = [mapped(orm.declarative_base(), sqlalchemy) for _ in range(2)]
        with self.world.manager(2) as xa:
            engines = [create_engine(xa, rm, future=True) for rm in (0, 1)]
            binds = {kind: engine for kinds, engine in zip(made, engines) for kind in kinds}
            self.in_sessions(xa, orm.sessionmaker(binds=binds, future=True), made)
            self.in_core(xa, engines, sqlalchemy)
        self.told(f"SQLAlchemy {sqlalchemy.__version__}: the sum", sum(map(sum, self.balances())), 2 * ACCOUNTS * 1000)

    def balances(self):
        return [list(map(int, found)) for found in self.values("SELECT balance FROM account")]

    def in_sessions(self, xa, make, made):
        kept = []

        def transfer(*ends, fails=False):
            with xa.transaction() as t:
                session = make()
                kept.append(session)
                for (account, moved), sign in zip(made, (-1, 1)):
                    session.get(account, 1).balance += sign * 10
                    session.add(moved(gtrid=t.gtrid, amount=10))
                session.flush()
                for end in ends:
                    getattr(session, end)()
                if fails:
                    raise KeyError
            return t.gtrid

        self.told("a Session is committed", self.holds(transfer("commit")), BOTH)
        self.told("a Session is rolled back", self.holds(transfer("rollback")), NEITHER)
        self.told("a Session is closed", self.holds(transfer("close")), NEITHER)
        before = self.balances()
        for name, ends, fails in (("is committed, and the block fails", ["commit", "close"], True), ("is left open", [], False)):
            raised = "nothing"
            try:
                transfer(*ends, fails=fails)
            except (KeyError, RolledBack) as error:
                raised = type(error).__name__
            self.told(f"a Session {name}: {raised}", self.balances() == before, True)
        for session in kept:
            session.close()

    def in_core(self, xa, engines, sqlalchemy):
        with xa.transaction() as t:
            for engine in engines:
                with engine.begin() as connection:
                    connection.execute(sqlalchemy.text("INSERT INTO moved VALUES (:gtrid, 1)"), {"gtrid": t.gtrid})
        self.told("Core is committed", self.holds(t.gtrid), BOTH)
        try:
            with xa.transaction() as t:
                for engine in engines:
                    with engine.begin() as connection:
                        connection.execute(sqlalchemy.text("INSERT INTO moved VALUES (:gtrid, 1)"), {"gtrid": t.gtrid})
                self.world.servers[1].kill()
        except RolledBack:
            pass
        self.world.servers[1].start()
        self.told("Core, and database 1 is killed before the votes", self.holds(t.gtrid), NEITHER)

    # ** asyncio

    def asyncio(self):
        async def transfer(xa, fails):
            async with xa.transaction_async() as t:
                for rm, sign in ((0, -1), (1, 1)):
                    await t[rm].execute("UPDATE account SET balance = balance + %s WHERE id = 1", [sign])
                    await t[rm].execute("INSERT INTO moved VALUES (%s, 1)", [t.gtrid])
                await asyncio.sleep(0.01)
                if fails:
                    raise KeyError

        async def transfers(xa):
            tasks = [asyncio.create_task(transfer(xa, number % 5 == 0)) for number in range(40)]
            await asyncio.sleep(0.2)
            for task in tasks[1::10]:
                task.cancel()
            return await asyncio.gather(*tasks, return_exceptions=True)

        before = [set(found) for found in self.values("SELECT gtrid FROM moved")]
        with self.world.manager(4) as xa:
            ended = asyncio.run(transfers(xa))
            committed = xa.counts()["committed"]
        left, right = (set(found) - old for found, old in zip(self.values("SELECT gtrid FROM moved"), before))
        self.told("tasks of asyncio, some of which fail or are cancelled", (left == right, len(left) == committed), (True, True))
        kinds = {type(error).__name__ for error in ended if error is not None}
        self.told("their exceptions", kinds <= {"KeyError", "CancelledError"}, True)
        self.told("the sum after them", sum(map(sum, self.balances())), 2 * ACCOUNTS * 1000)

    # ** the command

    def command(self):
        path = f"{self.world.home}/bank.toml"
        kinds = [f"{type(server.database()).__module__}:{type(server.database()).__name__}" for server in self.world.servers]
        with open(path, "w") as it:
            it.write(f"log = {json.dumps(self.world.log)}\npatience = 5\nprogram = {json.dumps(self.world.coordinator)}\n")
            for kind, server in zip(kinds, self.world.servers):
                it.write(f"\n[[database]]\nkind = {json.dumps(kind)}\n{server.in_toml()}\n")
        for moment, call, wanted in (("after", "xa_commit", BOTH), ("before", "xa_rollback", NEITHER)):
            gtrid = self.crash(moment)
            status, printed = self.does(path, "status")
            waiting = [line.split()[0][:-1] for line in printed.splitlines() if f"waits for {call}" in line and gtrid in line]
            self.told(f"status, of a driver that was killed {moment} its decision", (status, len(waiting)), (1, 2))
            status, printed = self.does(path, "end", "--yes", *waiting[:1])
            self.told(f"{call} of its first branch by end", (status, "it is ended" in printed), (0, True))
            with self.world.manager(2):
                self.told("status beside a program", "a program has it" in self.does(path, "status")[1], True)
            self.told("what became of it", self.holds(gtrid), wanted)
        gtrid = self.crash("after")
        self.told("recover", (self.does(path, "recover")[0], self.holds(gtrid)), (0, BOTH))

    def crash(self, moment):
        """A driver is killed at a moment: its transaction."""
        words = [sys.executable, "-c", textwrap.dedent(CRASHES), self.world.home, moment]
        return subprocess.run(words, env=environment(), stdout=subprocess.PIPE, text=True, check=False).stdout.strip()

    def does(self, path, *words):
        """The status of the command, and what it prints."""
        words = [sys.executable, "-m", "garterfossil", words[0], "--config", path, *words[1:]]
        done = subprocess.run(words, env=environment(), stdout=subprocess.PIPE, stderr=subprocess.STDOUT, text=True, check=False)
        return done.returncode, done.stdout


def environment():
    here = os.path.dirname(os.path.realpath(__file__))
    return {**os.environ, "PYTHONPATH": os.pathsep.join([here, os.path.join(TOP, "drivers", "python")])}


def mapped(base, sqlalchemy):
    """Classes for the tables of one of the databases."""

    class Account(base):
        __tablename__ = "account"
        id = sqlalchemy.Column(sqlalchemy.Integer, primary_key=True)
        balance = sqlalchemy.Column(sqlalchemy.BigInteger)

    class Moved(base):
        __tablename__ = "moved"
        gtrid = sqlalchemy.Column(sqlalchemy.String(32), primary_key=True)
        amount = sqlalchemy.Column(sqlalchemy.BigInteger)

    return Account, Moved


def run(world):
    """Prints each story. How many were wrong."""
    logging.getLogger("garterfossil").setLevel(logging.CRITICAL)
    libraries = Libraries(world)
    libraries.sqlalchemy()
    libraries.asyncio()
    libraries.command()
    found = world.look_at_doubt()
    print(f"libraries: {libraries.stories} stories, {libraries.wrong} wrong, {found} in doubt at the end")
    return libraries.wrong + found + readme.run(world)
