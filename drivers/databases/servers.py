"""Servers of databases on sockets in a folder, by an ordinary user: made, started, killed and stopped."""

import glob
import importlib
import os
import pwd
import shutil
import signal
import socket
import subprocess
import sys
import time

#: The user of the servers if this is run by root, whom neither server takes.
SERVER_USER = "postgres"
#: If this is in the environment, also in that of a driver that is started, the databases are reached by their other modules.
OTHER_MODULES = "WITH_OTHER_MODULES"


class Missing(Exception):
    """Something that is to be installed first."""


def as_server_user():
    """What subprocess.Popen needs to start a server: another user, if this is root."""
    if os.geteuid() != 0:
        return {}
    try:
        found = pwd.getpwnam(SERVER_USER)
    except KeyError:
        raise Missing(f"the user {SERVER_USER}, for servers that root starts (Debian's package postgresql makes it)") from None
    return {"user": found.pw_uid, "group": found.pw_gid, "extra_groups": []}


def own(path):
    """Gives a folder to the servers' user."""
    who = as_server_user()
    if who:
        os.chown(path, who["user"], who["group"])


def run(words, **more):
    done = subprocess.run(words, stdout=subprocess.PIPE, stderr=subprocess.STDOUT, **as_server_user(), **more)
    if done.returncode != 0:
        sys.exit(f"{words[0]} failed:\n{done.stdout.decode()}")


def processes_of(parent):
    """A process and those that it started."""
    found = [parent]
    for path in glob.glob("/proc/[0-9]*/stat"):
        try:
            with open(path) as it:
                number, rest = path.split("/")[2], it.read().rpartition(")")[2].split()
            if int(rest[1]) == parent:
                found.append(int(number))
        except OSError:
            pass
    return found


def free_port():
    """A port of TCP that nobody listens on."""
    with socket.socket() as it:
        it.bind(("127.0.0.1", 0))
        return it.getsockname()[1]


class Server:
    """A server, in a folder of its own. It listens on a socket there, and on a port only if it is given one."""

    port = None
    #: The module that reaches it, as its adapter is called, the other one, and the adapter's class.
    ADAPTERS = ()

    def __init__(self, home, name):
        self.name = name
        self.home = os.path.join(home, name)
        self.process = None
        os.mkdir(self.home)
        own(self.home)
        self.make()

    @classmethod
    def found(cls, home, name):
        """A server that another process made and started."""
        server = cls.__new__(cls)
        server.name, server.home, server.process = name, os.path.join(home, name), None
        return server

    def start(self):
        """Starts it, and waits until it answers. On a busy machine a process that was killed may
        still be there: so it is started again."""
        until = time.monotonic() + 60
        self.begin()
        while not self.answers():
            if time.monotonic() > until:
                sys.exit(f"{self.name} doesn't start; the end of its log:\n{self.last_of_log()}")
            time.sleep(0.05)
            if self.process.poll() is not None:
                time.sleep(0.5)
                self.begin()

    def begin(self):
        with open(f"{self.home}/log", "ab") as it:
            self.process = subprocess.Popen(
                self.words(), cwd=self.home, stdin=subprocess.DEVNULL, stdout=it, stderr=it, start_new_session=True, **as_server_user()
            )

    def adapter(self):
        """The driver's class for it."""
        usual, other, name = self.ADAPTERS
        module = other if OTHER_MODULES in os.environ else usual
        return getattr(importlib.import_module(f"garterfossil.adapters.{module}"), name)

    def last_of_log(self):
        """The last 4,000 bytes of what it said, since its folder may be gone when this is read."""
        with open(f"{self.home}/log", "rb") as it:
            return it.read()[-4000:].decode(errors="replace")

    def kill(self):
        """Kills it, and all its processes, as a loss of power would."""
        for number in processes_of(self.process.pid):
            try:
                os.kill(number, signal.SIGKILL)
            except ProcessLookupError:
                pass
        self.process.wait()

    def stop(self):
        if self.process is not None and self.process.poll() is None:
            self.process.send_signal(self.STOP)
            self.process.wait()

    def restart(self, port):
        """Stops it, and starts it again, on a port or without one."""
        self.stop()
        self.port = port
        self.start()


class PostgreSQLServer(Server):
    PROGRAMS = ["initdb", "postgres", "pg_isready"]
    ADAPTERS = ("postgresql", "psycopg", "PostgreSQL")
    STOP = signal.SIGINT
    #: A table that takes no second 1: it says so as the branch is prepared.
    ONCE = "CREATE TABLE once (i int UNIQUE DEFERRABLE INITIALLY DEFERRED)"
    #: What lists all prepared branches, whoever named them.
    DOUBT = "SELECT gid FROM pg_prepared_xacts"

    def make(self):
        run([binary("initdb"), "-D", f"{self.home}/data", "-A", "trust", "-U", "xa", "--no-sync", "-E", "UTF8", "--locale=C"], cwd=self.home)
        with open(f"{self.home}/data/postgresql.conf", "a") as it:
            it.write(
                f"unix_socket_directories = '{self.home}'\nmax_connections = 250\n"
                "max_prepared_transactions = 200\nshared_buffers = 32MB\nmax_wal_size = 256MB\nautovacuum = off\n"
                "max_parallel_workers = 0\njit = off\n"
            )

    def words(self):
        network = ["-c", "listen_addresses="] if self.port is None else ["-c", "listen_addresses=127.0.0.1", "-p", str(self.port)]
        return [binary("postgres"), "-D", f"{self.home}/data", *network]

    def answers(self):
        words = [binary("pg_isready"), "-q", "-h", self.home, "-p", str(self.port or 5432), "-U", "xa", "-d", "postgres"]
        return subprocess.run(words, **as_server_user()).returncode == 0

    def database(self):
        """What the driver is given for it."""
        return self.adapter()(f"host={self.home} port={self.port or 5432} user=xa dbname=postgres", lock_timeout=2)

    def in_toml(self):
        """The same in a file for garterfossil.manager_of."""
        return f'dsn = "host={self.home} port={self.port or 5432} user=xa dbname=postgres"'

    def socket(self):
        """The path of the socket that it listens on."""
        return f"{self.home}/.s.PGSQL.{self.port or 5432}"

    def database_at(self, port):
        """The same over a port that passes on to its socket."""
        return self.adapter()(f"host=127.0.0.1 port={port} user=xa dbname=postgres", lock_timeout=2)

    def wrong_databases(self):
        """What no start accepts."""
        there = f"host={self.home} port={self.port or 5432}"
        return [self.adapter()(f"{there} user=nobody dbname=postgres"), self.adapter()(f"{there} user=xa dbname=no_such")]

    def streaming_cursor(self, branch):
        """A cursor of the module whose rows stay with the server until they are asked for."""
        return branch.cursor("streamed")

    def plain(self):
        """A connection of another program."""
        import psycopg2

        return psycopg2.connect(f"host={self.home} port={self.port or 5432} user=xa dbname=postgres")

    def url(self):
        """What a JDBC driver is given for it, on its port."""
        return f"jdbc:postgresql://127.0.0.1:{self.port}/postgres?user=xa"


class MariaDBServer(Server):
    PROGRAMS = ["mariadb-install-db", "mariadbd"]
    ADAPTERS = ("mariadb", "mysqlclient", "MariaDB")
    STOP = signal.SIGTERM
    #: A table that takes no second 1: it says so at once.
    ONCE = "CREATE TABLE once (i int UNIQUE)"
    #: What lists all prepared branches, whoever named them.
    DOUBT = "XA RECOVER"

    def make(self):
        os.mkdir(f"{self.home}/tmp")
        own(f"{self.home}/tmp")
        run([binary("mariadb-install-db"), "--no-defaults", f"--tmpdir={self.home}/tmp", f"--datadir={self.home}/data",
             "--auth-root-authentication-method=normal", "--skip-test-db", "--innodb-log-file-size=16M"], cwd=self.home)
        self.is_new = True

    def words(self):
        network = ["--skip-networking"] if self.port is None else ["--bind-address=127.0.0.1", f"--port={self.port}"]
        return [binary("mariadbd"), "--no-defaults", f"--datadir={self.home}/data", f"--tmpdir={self.home}/tmp",
                f"--socket={self.home}/sock", f"--pid-file={self.home}/pid", *network, "--innodb-log-file-size=16M",
                "--innodb-buffer-pool-size=32M", "--performance-schema=OFF", "--max-connections=250", "--skip-log-bin"]

    def answers(self):
        import pymysql

        try:
            link = pymysql.connect(unix_socket=f"{self.home}/sock", user="root", autocommit=True)
        except pymysql.err.MySQLError:
            return False
        if self.is_new:
            with link.cursor() as cursor:
                cursor.execute("CREATE DATABASE bank")
                cursor.execute("CREATE USER bank@localhost")
                cursor.execute("GRANT ALL ON bank.* TO bank@localhost")
            self.is_new = False
        link.close()
        return True

    def database(self):
        """What the driver is given for it."""
        return self.adapter()(unix_socket=self.socket(), user="bank", database="bank", lock_timeout=2)

    def in_toml(self):
        """The same in a file for garterfossil.manager_of."""
        return f'unix_socket = "{self.socket()}"\nuser = "bank"\ndatabase = "bank"'

    def socket(self):
        """The path of the socket that it listens on."""
        return f"{self.home}/sock"

    def database_at(self, port):
        """The same over a port that passes on to its socket."""
        return self.adapter()(host="127.0.0.1", port=port, user="bank", database="bank", lock_timeout=2)

    def wrong_databases(self):
        """What no start accepts."""
        given = [{"user": "bank", "password": "wrong"}, {"user": "bank", "database": "no_such"}, {"user": "nobody"}]
        return [self.adapter()(unix_socket=self.socket(), **each) for each in given]

    def streaming_cursor(self, branch):
        """A cursor of the module whose rows stay with the server until they are asked for."""
        cursors = importlib.import_module("MySQLdb.cursors" if OTHER_MODULES in os.environ else "pymysql.cursors")
        return branch.cursor(cursors.SSCursor)

    def plain(self):
        """A connection of another program."""
        import pymysql

        return pymysql.connect(unix_socket=self.socket(), user="bank", database="bank", autocommit=True)

    def url(self):
        """What a JDBC driver is given for it, on its port."""
        return f"jdbc:mariadb://127.0.0.1:{self.port}/bank?user=bank"


def binary(name):
    """Where a program of a server lies: Debian keeps PostgreSQL's off the PATH."""
    found = shutil.which(name) or shutil.which(name, path="/usr/sbin")
    kept = sorted(glob.glob(f"/usr/lib/postgresql/*/bin/{name}"))
    if found is None and not kept:
        package = "postgresql" if name in PostgreSQLServer.PROGRAMS else "mariadb-server"
        raise Missing(f"{name} (of Debian the package {package})")
    return found or kept[-1]
