"""What the parts of drivers/with-databases work on: two servers, a log, and a coordinator over them, in a folder."""

import importlib
import json
import os
import shutil
import sys
import tempfile

from servers import OTHER_MODULES, MariaDBServer, Missing, PostgreSQLServer, own

HERE = os.path.dirname(os.path.realpath(__file__))
TOP = os.path.dirname(os.path.dirname(HERE))
sys.path.insert(0, os.path.join(TOP, "drivers", "python"))

ACCOUNTS = 128
#: What all accounts of both databases hold together.
SUM = 2 * ACCOUNTS * 1000


def see_one(module, package):
    """Sees that a module is there."""
    try:
        importlib.import_module(module)
    except ImportError:
        raise Missing(f"the module {module} of {sys.executable} (Debian's package {package} is for /usr/bin/python3)") from None


def see_module(kind):
    """Sees that the module for a kind of server is there. Of psycopg2 a stand-in will do: then it says so."""
    if OTHER_MODULES in os.environ:
        see_one(*(("MySQLdb", "python3-mysqldb") if kind is MariaDBServer else ("psycopg", "python3-psycopg")))
    if kind is MariaDBServer:
        see_one("pymysql", "python3-pymysql")
        return "module"
    try:
        import psycopg2  # noqa: F401
    except ImportError:
        import pq

        pq.install()
        return "stand-in"
    return "module"


class World:
    """Two servers of databases in a folder, and what a driver of both needs."""

    #: What lies between the programs and the servers, as a line of figures says it.
    network = ""

    def __init__(self, home, kinds, coordinator):
        self.home = home
        self.coordinator = coordinator
        self.servers = [kind(home, f"db{number}") for number, kind in enumerate(kinds)]

    @classmethod
    def make(cls, kinds, coordinator):
        home = tempfile.mkdtemp(prefix="xa-")
        os.chmod(home, 0o755)
        own(home)
        try:
            world = cls(home, kinds, coordinator)
            with open(f"{home}/world.json", "w") as it:
                json.dump({"kinds": [kind.__name__ for kind in kinds], "coordinator": coordinator}, it)
        except BaseException:
            shutil.rmtree(home)
            raise
        return world

    @classmethod
    def found(cls, home):
        """The world of a folder, for another process: its servers are there already."""
        with open(f"{home}/world.json") as it:
            found = json.load(it)
        kinds = {"PostgreSQLServer": PostgreSQLServer, "MariaDBServer": MariaDBServer}
        for name in found["kinds"]:
            see_module(kinds[name])
        world = cls.__new__(cls)
        world.home, world.coordinator = home, found["coordinator"]
        world.servers = [kinds[name].found(home, f"db{number}") for number, name in enumerate(found["kinds"])]
        return world

    def __enter__(self):
        for server in self.servers:
            server.start()
        return self

    def __exit__(self, *_):
        for server in self.servers:
            server.stop()
        shutil.rmtree(self.home, ignore_errors=True)

    # ** the driver

    @property
    def log(self):
        return f"{self.home}/log.db"

    def databases(self):
        return [server.database() for server in self.servers]

    def command(self, threads, log=None):
        return [self.coordinator, "serve", "--log", log or self.log, str(threads), "2"]

    def manager(self, threads, patience=30.0, databases=None, name="", log=None, mirror=None):
        """A transaction manager, over both databases unless it is given others. One with a name has a log of its own; one that is
        given a log has the name that this keeps. Its mirror is the server of a number."""
        from garterfossil import TransactionManager

        return TransactionManager(
            databases or self.databases(),
            log or (f"{self.home}/{name}.db" if name else self.log),
            name=None if log else name,
            threads=threads,
            patience=patience,
            program=self.coordinator,
            mirror=None if mirror is None else self.servers[mirror].database(),
        )

    # ** the bank

    def prepare(self):
        """Makes the tables anew, with 1,000 on each account, and a new log."""
        for path in (self.log, f"{self.log}-wal", f"{self.log}-databases", f"{self.home}/told"):
            if os.path.exists(path):
                os.remove(path)
        from garterfossil.adapters.base import Place

        for server in self.servers:
            database = server.database()
            for number in range(2):
                database.end_connections([], Place(number=number))
            connection = database.connect()
            for xid in connection._listed():
                connection._roll_back_prepared(xid)
            for table in ("account", "moved", "alone", "once"):
                connection.run(f"DROP TABLE IF EXISTS {table}")
            connection.run("CREATE TABLE account (id int PRIMARY KEY, balance bigint CHECK (balance > -100000000))")
            # (A manager's name stands in front of its transactions.)
            connection.run("CREATE TABLE moved (gtrid varchar(64) PRIMARY KEY, amount bigint)")
            connection.run("CREATE TABLE alone (gtrid varchar(64) PRIMARY KEY)")
            for number in range(ACCOUNTS):
                connection.run("INSERT INTO account VALUES (%s, 1000)", [number])
            connection.run(server.ONCE)
            connection.run("INSERT INTO once VALUES (1)")
            connection.close()

    def look_at_doubt(self):
        """How many branches are prepared in both databases together."""
        listed = 0
        for database in self.databases():
            connection = database.connect()
            listed += len(connection._listed())
            connection.close()
        return listed

    def told(self):
        """The outcomes that drivers were told: of each transaction, whether it was over both or one alone, and its end."""
        found = {}
        with open(f"{self.home}/told") as it:
            for line in it:
                words = line.split()
                if line.endswith("\n") and len(words) == 3:
                    found[words[0]] = words[1:]
        return found

    def look(self):
        """Compares what the databases hold, and what was told. A count of each kind."""
        moved, alone, sums = [], [], 0
        for database in self.databases():
            connection = database.connect()
            moved.append(dict(connection.run("SELECT gtrid, amount FROM moved").rows))
            alone.append({gtrid for gtrid, in connection.run("SELECT gtrid FROM alone")})
            sums += int(connection.run("SELECT SUM(balance) FROM account").rows[0][0])
            connection.close()
        left, right = moved
        told = self.told()
        wrong = 0
        for gtrid, (kind, end) in told.items():
            holds = [gtrid in left, gtrid in right] if kind == "both" else [gtrid in alone[int(kind)]]
            wrong += holds != [end == "committed"] * len(holds)
        return {
            "transfers in both": len(left.keys() & right.keys()),
            "in one alone": len(alone[0]) + len(alone[1]),
            "in one and not the other, or different": len({g for g in left.keys() | right.keys() if left.get(g) != right.get(g)}),
            "outcomes told": len(told),
            "told, and otherwise in the databases": wrong,
            "in doubt": self.look_at_doubt(),
            "sum": sums,
        }
