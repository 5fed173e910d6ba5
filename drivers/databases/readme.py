"""The page of the driver in Python as its reader meets it: what it says to do is done, and its examples are run, over both databases."""

import os
import re
import subprocess
import sys
import textwrap

from servers import OTHER_MODULES, MariaDBServer
from world import HERE, TOP

PAGE = os.path.join(TOP, "drivers", "python", "README.md")
BEGIN = "from garterfossil import TransactionManager, manager_of\n"
#: Of each example a line of it, and what a program has before it and after it.
EXAMPLES = {
    "work that is tried again": ("gtrid = xa.run(work)", f'{BEGIN}xa = manager_of("bank.toml")\n', "xa.close()\n"),
    "cursors": ("cursor.executemany(", f'{BEGIN}xa = manager_of("bank.toml")\n', "xa.close()\n"),
    "SQLAlchemy": ("from garterfossil.sqlalchemy import", f'{BEGIN}xa = manager_of("bank.toml")\n', "xa.close()\n"),
    "asyncio": ("async def buy(", f'import asyncio\n{BEGIN}xa = manager_of("bank.toml")\n', 'asyncio.run(buy(xa, "coffee"))\nxa.close()\n'),
    "without a file": ("from garterfossil.adapters.postgresql", "", ""),
}
#: A program that buys one thing more, and ends after its decision to commit.
KILLED = """
    import os
    from garterfossil import manager_of
    from moments import behind_the_decision
    xa = manager_of("bank.toml")
    with xa.transaction() as t:
        t["bank"].execute("UPDATE account SET balance = balance - 10 WHERE id = 1")
        t["shop"].execute("INSERT INTO orders (text) VALUES ('butter')")
        behind_the_decision(xa, lambda: os._exit(1))
"""


class Page:
    def __init__(self, world):
        self.world = world
        self.stories = self.wrong = 0
        self.home = os.path.join(world.home, "readme")
        os.mkdir(self.home)
        os.symlink(world.coordinator, os.path.join(self.home, "xatm"))
        postgresql, mariadb = world.servers
        with open(PAGE, encoding="utf-8") as it:
            text = it.read()
        for here, there in (
            ("host=localhost", f"host={postgresql.home} port={postgresql.port or 5432}"),
            ('host = "localhost"', f'unix_socket = "{mariadb.socket()}"'),
            ('host="localhost"', f'unix_socket="{mariadb.socket()}"'),
        ):
            text = text.replace(here, there)
        self.text = text

    def told(self, name, found, wanted):
        self.stories += 1
        self.wrong += found != wanted
        print(f"{'ok   ' if found == wanted else 'WRONG'} README: {name}: {found}", flush=True)

    def block(self, line):
        """The example that has a line."""
        return next(text for text in re.findall(r"```\w+\n(.*?)```", self.text, re.S) if line in text)

    def printed(self, command):
        """What the page says that a command prints."""
        found = re.search(rf"^    \$ {re.escape(command)}\n((?:    .*\n)+)", self.text, re.M)
        return textwrap.dedent(found.group(1)).splitlines()

    def does(self, *words):
        """What a program prints in the folder of the examples, and its status."""
        environment = {**os.environ, "PATH": f"{self.home}:{os.environ['PATH']}", "PYTHONPATH": f"{TOP}/drivers/python:{HERE}"}
        done = subprocess.run(
            [sys.executable, *words], cwd=self.home, env=environment, stdout=subprocess.PIPE, stderr=subprocess.STDOUT, text=True, check=False
        )
        return done.stdout.splitlines(), done.returncode

    def write(self, name, text):
        with open(os.path.join(self.home, name), "w", encoding="utf-8") as it:
            it.write(text)
        return name

    def run_in(self, statements, link):
        with link.cursor() as cursor:
            for statement in statements:
                cursor.execute(statement)
            return cursor.fetchall() if cursor.description else []

    def both(self, user=None):
        """Connections to both servers: of their own users, or of the page's to its databases."""
        import psycopg2
        import pymysql

        postgresql, mariadb = self.world.servers
        of_bank = {"user": user, "password": "secret", "dbname": "bank"} if user else {"user": "xa", "dbname": "postgres"}
        of_shop = {"user": user, "password": "secret", "database": "shop"} if user else {"user": "root"}
        links = psycopg2.connect(host=postgresql.home, port=postgresql.port or 5432, **of_bank), pymysql.connect(
            unix_socket=mariadb.socket(), **of_shop
        )
        for link in links:
            link.autocommit(True) if callable(link.autocommit) else setattr(link, "autocommit", True)
        return links

    def set_up(self):
        """Steps 1 to 3: databases, users and tables, by the statements of the page."""
        made = re.findall(r"^    ((?:CREATE|GRANT) .*);$", self.text, re.M)
        bank, shop = self.both()
        self.run_in(made[:2], bank)
        self.run_in(made[2:], shop)
        tables = re.findall(r"^    (psql|mariadb) .* -[ce] '(.*)'$", self.text, re.M)
        for program, link in zip(("psql", "mariadb"), self.both("transfer")):
            self.run_in([statement for name, statement in tables if name == program], link)
        self.write("bank.toml", self.block("[[database]]"))
        self.write("buy.py", self.block("for text in sys.argv[1:]:"))

    def balance_and_orders(self):
        bank, shop = self.both("transfer")
        (balance,), = self.run_in(["SELECT balance FROM account WHERE id = 1"], bank)
        return balance, sorted(text for text, in self.run_in(["SELECT text FROM orders"], shop))

    def buys(self):
        """Step 4."""
        self.told("tea and milk", self.does("buy.py", "tea", "milk"), (self.printed("python3 buy.py tea milk"), 0))
        printed, status = self.does("buy.py", "tea")
        self.told("tea once more", (printed[-1].split(":")[0], status), ("pymysql.err.IntegrityError", 1))
        self.told("what is left", self.balance_and_orders(), (80, ["milk", "tea"]))

    def examples(self):
        for name, (line, before, after) in EXAMPLES.items():
            printed, status = self.does(self.write("example.py", before + self.block(line) + after))
            if name == "SQLAlchemy" and any("No module named 'sqlalchemy'" in said for said in printed):
                print("       SQLAlchemy isn't there")
            else:
                self.told(name, (status, printed if status else []), (0, []))
        balance, orders = self.balance_and_orders()
        self.told("what was bought is paid", balance, 100 - 10 * len(orders))

    def killed(self):
        """Step 5."""
        self.told("a program that is killed", self.does(self.write("killed.py", textwrap.dedent(KILLED)))[1], 1)
        command = "-m garterfossil status --config bank.toml"
        printed, status = self.does(*command.split())
        self.told("what status prints", [shape(line) for line in printed], [shape(line) for line in self.printed(f"python3 {command}")])
        self.told("its status", status, 1)
        self.told("recover", self.does("-m", "garterfossil", "recover", "--config", "bank.toml")[1], 0)
        balance, orders = self.balance_and_orders()
        self.told("what was decided is bought and paid", ("butter" in orders, balance), (True, 100 - 10 * len(orders)))


def shape(line):
    """A line without what is other each time: the name of the manager, transactions, seconds and places."""
    line = re.sub(r"7:[0-9a-f]+:[0-9a-f]+|X'[0-9a-f]+',X'[0-9a-f]+',7", "XID", line)
    line = re.sub(r"(PostgreSQL|MariaDB)\(.*?\)", r"\1", line)
    return re.sub(r"(?<=the manager )\w+|/\S*/(?=decisions)|\d+(?= seconds)", "..", line)


def run(world):
    """Prints each story. How many were wrong. The page has PostgreSQL by psycopg2 and MariaDB by PyMySQL."""
    if not isinstance(world.servers[1], MariaDBServer) or OTHER_MODULES in os.environ or "pq" in sys.modules:
        print("       The page's databases and modules aren't those of this run")
        return 0
    page = Page(world)
    page.set_up()
    page.buys()
    page.examples()
    page.killed()
    print(f"README: {page.stories} stories, {page.wrong} wrong")
    return page.wrong
