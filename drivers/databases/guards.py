"""Stories over two databases of what a program may be given wrongly, and of what may come between: another database or an older log for
one start, a coordinator that is stopped, a stop by SIGTERM, signals at random moments, branches that somebody ends by hand, and
statements that end a transaction. Each is looked at in the databases."""

import contextlib
import logging
import os
import shutil
import signal
import subprocess
import sys
import textwrap
import threading
import time

from moments import before_a_move, behind_the_decision, beside, lines
from servers import MariaDBServer, PostgreSQLServer
from world import HERE, TOP

from garterfossil import Code, EndRefused, HeuristicEnd, RolledBack, SetupError, XaError

BOTH, NEITHER = [True, True], [False, False]
#: A program that moves money on four threads, or on the main one with a timer, until it is ended or its time is over.
PROGRAM = """
    import signal, sys, threading, time
    from world import World
    world, how, seconds = World.found(sys.argv[1]), sys.argv[2], float(sys.argv[3])
    xa = world.manager(5, 10.0, name="guards")

    def move():
        with xa.transaction() as t:
            for rm in (0, 1):
                t[rm].execute("INSERT INTO moved VALUES (%s, 1)", [xa.name + t.gtrid])

    def moves():
        while not xa._is_closed:
            try:
                move()
            except Exception:
                pass

    class Interrupt(Exception):
        pass

    def interrupt(*_):
        raise Interrupt

    if how == "stopped":
        xa.close_at(signal.SIGTERM)
    if how == "interrupted":
        signal.signal(signal.SIGALRM, interrupt)
        until, met = time.monotonic() + seconds, 0
        while time.monotonic() < until:
            try:
                try:
                    signal.setitimer(signal.ITIMER_REAL, 0.001 + 0.0003 * (met % 60))
                    move()
                finally:
                    signal.setitimer(signal.ITIMER_REAL, 0)
            except Exception:
                met += 1
        until = time.monotonic() + 10
        while (len(xa._session.threads._free) < 5 or xa.counts()["open"]) and time.monotonic() < until:
            time.sleep(0.1)
        print(met, len(xa._session.threads._free), xa.counts()["open"], flush=True)
        # What is left is looked at while the program lives.
        sys.stdin.readline()
        xa.close()
    else:
        for _ in range(4):
            threading.Thread(target=moves, daemon=True).start()
        print("it moves", flush=True)
        time.sleep(seconds)
"""


class Guards:
    def __init__(self, world):
        self.world = world
        self.stories = self.wrong = 0
        world.prepare()
        for path in os.listdir(world.home):
            if path.startswith("guards.db"):
                os.remove(f"{world.home}/{path}")

    def told(self, name, found, wanted=True):
        self.stories += 1
        self.wrong += found != wanted
        print(f"{'ok   ' if found == wanted else 'WRONG'} {name}: {found}", flush=True)

    def manager(self, patience=10.0, databases=None):
        return self.world.manager(4, patience, databases=databases, name="guards")

    @property
    def log(self):
        return f"{self.world.home}/guards.db"

    def columns(self, statement):
        found = []
        for server in self.world.servers:
            connection = server.database().connect()
            found.append([row[0] for row in connection.run(statement).rows])
            connection.close()
        return found

    def holds(self, mark):
        return [mark in found for found in self.columns("SELECT gtrid FROM moved")]

    def write(self, t, mark, *rms):
        for rm in rms or (0, 1):
            t[rm].execute("INSERT INTO moved VALUES (%s, 1)", [mark])

    def refused(self, name, text, **options):
        """A start that is refused, however often it is tried."""
        for _ in range(3):
            try:
                self.manager(**options).close()
                self.told(name, "it started", text)
            except SetupError as error:
                self.told(name, text if text in str(error) else str(error), text)

    def killed_in_the_second_phase(self, mark, xa=None):
        """A decided transaction of which the second database hasn't heard."""
        xa = xa or self.manager()

        def gone():
            # All is gone but what is on disk.
            xa._session.coordinator.kill()
            for line in lines(xa):
                line.close()

        behind_the_decision(xa, gone)
        with contextlib.suppress(XaError), xa.transaction() as t:
            self.write(t, mark)
        xa._is_closed = True

    # ** what belongs together

    def another_database(self):
        """The second phase is broken off, and the next start finds another database in the place of one."""
        self.killed_in_the_second_phase("another")
        for rm, server in enumerate(self.world.servers):
            databases = self.world.databases()
            databases[rm] = other_at(server)
            self.refused(f"another database in the place of {rm}", f"database {rm} isn't the database", databases=databases)
        if self.world.servers[0].__class__ is self.world.servers[1].__class__:
            self.refused("both have changed places", "changed places", databases=self.world.databases()[::-1])
        self.manager().close()
        self.told("what was decided is committed once they are back", self.holds("another"), BOTH)

    def an_older_log(self):
        """The log is put back as it was some sessions ago."""
        self.manager().close()
        shutil.copy(self.log, f"{self.log}.copy")
        self.manager().close()
        self.killed_in_the_second_phase("older")
        kept = [path for path in (self.log, f"{self.log}-wal") if os.path.exists(path)]
        for path in kept:
            os.rename(path, f"{path}.right")
        shutil.copy(f"{self.log}.copy", self.log)
        self.refused("an older log", "is older than")
        os.remove(self.log)
        self.refused("a new log in its place", "the log is new, and database")
        for path in (self.log, f"{self.log}-wal"):
            if os.path.exists(path):
                os.remove(path)
        for path in kept:
            os.rename(f"{path}.right", path)
        self.manager().close()
        self.told("what was decided is committed once the log is back", self.holds("older"), BOTH)

    def branches_of_others(self):
        """Another program has branches prepared whose identifiers are of other kinds."""
        for server in self.world.servers:
            if not isinstance(server, MariaDBServer):
                continue
            for xid in ("'another program'", "'g','b',5", "X'00ff',X'62'"):
                link = server.plain()
                with link.cursor() as cursor:
                    for verb in ("START", "END", "PREPARE"):
                        cursor.execute(f"XA {verb} {xid}")
                link.close()
        with self.manager() as xa, xa.transaction() as t:
            self.write(t, "others")
        self.told("a start beside branches of other programs", self.holds("others"), BOTH)
        for server in self.world.servers:
            if isinstance(server, MariaDBServer):
                for xid in ("'another program'", "'g','b',5", "X'00ff',X'62'"):
                    # (It did nothing, and MariaDB says that it is rolled back.)
                    with contextlib.suppress(Exception), server.plain().cursor() as cursor:
                        cursor.execute(f"XA ROLLBACK {xid}")

    def other_names(self):
        """A log grows by a database, and one of its databases gets another name, while something is in doubt."""
        log = f"{self.world.home}/guards.db-named"

        def manager(*names):
            # The third one is the first once more, of which the driver knows nothing.
            databases = [*self.world.databases(), self.world.servers[0].database()]
            return self.world.manager(4, 10.0, databases=dict(zip(names, databases)), log=log)

        def refused(name, *names):
            try:
                manager(*names).close()
                self.told(name, "it started", "it is refused")
            except SetupError as error:
                self.told(name, "its resource manager" in str(error))

        self.killed_in_the_second_phase("named", manager("bank", "shop"))
        with manager("bank", "shop", "audit") as xa:
            self.told("what was decided is committed beside a database that is added", self.holds("named"), BOTH)
            with xa.transaction() as t:
                t["shop"].execute("INSERT INTO moved VALUES ('audited', 1)")
                t["audit"].execute("INSERT INTO moved VALUES ('audited', 1)")
        self.told("it takes part", self.holds("audited"), BOTH)
        refused("another name in its place", "bank", "shop", "post")
        self.killed_in_the_second_phase("renamed", manager("bank", "shop", "audit"))
        refused("another name without a word", "till", "shop", "audit")
        words = [self.world.coordinator, "log", "--rename-rm", "bank", "till", log]
        self.told("the program renames it", subprocess.run(words, check=False).returncode, 0)
        manager("till", "shop", "audit").close()
        self.told("what was decided is committed under the new name", self.holds("renamed"), BOTH)

    # ** what somebody else ends

    def ended_by_hand(self):
        """A branch is committed or rolled back by hand, between its vote and its end."""
        for rm, server in enumerate(self.world.servers):
            for end, wanted in (("commit", HeuristicEnd), ("rollback", RolledBack)):
                mark = f"by hand {rm} {end}"
                with self.manager() as xa:
                    found = self.broken_by_hand(xa, server, rm, end, mark)
                    self.told(f"{mark}: what is raised, and whether it is said", found[:2], [wanted, True])
                    self.told(f"{mark}: counted", xa.counts()["heuristic"], 1)
                printed = subprocess.run([self.world.coordinator, "log", self.log], stdout=subprocess.PIPE, text=True, check=False).stdout
                self.told(f"{mark}: the log has a record of it", f"{found[2]} heuristic" in printed)

    def broken_by_hand(self, xa, server, rm, end, mark):
        said = xid = None
        try:
            with xa.transaction() as t:
                self.write(t, mark)
                xid = t[rm].xid
                if end == "commit":
                    behind_the_decision(xa, lambda: self.end(xa, server, t, rm))
                else:
                    # The other one votes no, and before that is told this one is ended.
                    other = t._hands.parts[1 - rm].connection
                    other._prepare = lambda it: other._roll_back(it) or Code.RBOTHER
                    before_a_move(xa, "tell", lambda: self.end(xa, server, t, rm))
        except XaError as error:
            said = type(error), "by hand" in str(error)
        return [*(said or [None, None]), xid]

    def end(self, xa, server, t, rm):
        """Another connection rolls the branch back. MariaDB lets it do so only once the branch's own is gone."""
        part = t._hands.parts[rm]
        if isinstance(server, MariaDBServer):
            part.connection._close()
            part.connection._is_over()
            part.connection = part.line.connection = part.line.rm.connect()
        self.until_it_can(lambda connection: connection._roll_back_prepared(part.xid), server)

    def put_back(self):
        """A database lists a branch again whose transaction was committed, as one that was put back to an earlier moment."""
        for rm, server in enumerate(self.world.servers):
            with self.manager() as xa, xa.transaction() as t:
                self.write(t, f"put back {rm}")
                xid = t[rm].xid
            connection = server.database().connect()
            connection.do("start", xid)
            connection.execute("INSERT INTO moved VALUES (%s, 1)", [f"put back {rm} again"])
            connection.do("prepare", xid)
            connection.close()
            self.refused(f"a branch that was committed and is listed again at database {rm}", "Its transaction was committed, so by hand")
            self.told("it isn't rolled back", self.world.look_at_doubt(), 1)
            self.until_it_can(lambda connection: connection.do("commit", xid), server)
            with open(f"{self.log}-databases", encoding="utf-8") as it:
                lines = [line for line in it if '"shut"' not in line]
            with open(f"{self.log}-databases", "w", encoding="utf-8") as it:
                it.writelines(lines)
            self.manager().close()

    def until_it_can(self, do, server):
        """Has something done by another connection, which waits until the branch's own is gone."""
        connection = server.database().connect()
        for _ in range(50):
            with contextlib.suppress(XaError):
                do(connection)
                break
            time.sleep(0.1)
        connection.close()

    def notifications(self):
        """A branch that does nothing but notify is heard of if its transaction is committed."""
        for rm, server in enumerate(self.world.servers):
            connection = server.database().connect()
            if isinstance(server, PostgreSQLServer) and hasattr(connection.link, "poll"):
                connection.run("LISTEN guards")
                for mark, fails in (("rolled back", True), ("committed", False)):
                    with self.manager() as xa, contextlib.suppress(RolledBack), xa.transaction() as t:
                        t[rm].execute("SELECT pg_notify('guards', %s)", [mark])
                        self.write(t, f"notified {rm} {mark}", 1 - rm)
                        if fails:
                            other = t._hands.parts[1 - rm].connection
                            other._prepare = lambda it, other=other: other._roll_back(it) or Code.RBOTHER
                connection.link.poll()
                self.told(f"what is notified by database {rm}", [one.payload for one in connection.link.notifies], ["committed"])
            connection.close()

    def ends_in_statements(self):
        """Statements that end PostgreSQL's transaction, hidden as well as may be."""
        texts = [
            "/* /* /* x */ */ */ COMMIT", "-- x\rCOMMIT", "SELECT 1 AS a$b$; COMMIT; SELECT 1 AS c$b$", "PREPARE/**/TRANSACTION 'mine'",
        ]  # fmt: skip
        for rm, server in enumerate(self.world.servers):
            if not isinstance(server, PostgreSQLServer):
                continue
            with self.manager() as xa:
                for number, text in enumerate(texts):
                    with contextlib.suppress(RolledBack), xa.transaction() as t:
                        self.write(t, f"hidden {rm} {number}")
                        with contextlib.suppress(EndRefused):
                            t[rm].execute(text)
                        raise RolledBack("the program")
                    self.told(f"{text!r} ends nothing at database {rm}", self.holds(f"hidden {rm} {number}"), NEITHER)

    # ** what stands still

    def a_stopped_coordinator(self):
        with self.manager(patience=2.0) as xa:
            before_a_move(xa, "tell", lambda: os.kill(xa._session.coordinator.pid, signal.SIGSTOP))
            begun = time.monotonic()
            with contextlib.suppress(XaError), xa.transaction() as t:
                self.write(t, "stopped")
            self.told("a coordinator that is stopped is waited for no longer than three times the patience", time.monotonic() - begun < 6)
            with xa.transaction() as t:
                self.write(t, "behind it")
            found = self.holds("stopped")
            self.told("the transaction ends alike", found[0] == found[1])
            self.told("the next one goes on", self.holds("behind it"), BOTH)

    def a_long_transaction(self):
        """One transaction is long and one connection is lost, while others go on."""
        with self.manager() as xa, xa.transaction() as long:
            self.write(long, "long")
            with contextlib.suppress(Exception), xa.transaction(independent=True) as t:
                self.write(t, "lost")
                line = t._hands.parts[0].line
                self.world.servers[0].database().end_connections(beside(xa, line), line.rm.place)
                self.write(t, "lost 2")
            begun = time.monotonic()
            for number in range(20):
                with xa.transaction(independent=True) as t:
                    self.write(t, f"beside {number}")
            self.told("20 transactions beside a long one and a lost connection take less than 5 seconds", time.monotonic() - begun < 5)

    # ** how it ends

    def started(self, how, seconds):
        words = [sys.executable, "-c", textwrap.dedent(PROGRAM), self.world.home, how, str(seconds)]
        return subprocess.Popen(
            words, stdin=subprocess.PIPE, stdout=subprocess.PIPE, stderr=subprocess.DEVNULL, text=True,
            env={**os.environ, "PYTHONPATH": f"{HERE}:{TOP}/drivers/python"},
        )  # fmt: skip

    def stops(self):
        """A program under load is stopped by SIGTERM, as by systemd."""
        left = 0
        for number in range(10):
            with self.started("stopped", 60) as program:
                program.stdout.readline()
                time.sleep(0.2 + 0.05 * number)
                program.send_signal(signal.SIGTERM)
                program.wait(timeout=60)
                left += self.world.look_at_doubt()
        self.told("branches that are in doubt after 10 stops by SIGTERM", left, 0)
        self.told("transactions that are at one database alone", self.at_one_alone(), 0)

    def interrupts(self):
        """A signal handler raises exceptions at random moments."""
        with self.started("interrupted", 10) as program:
            met, free, open_ones = map(int, program.stdout.readline().split())
            self.told(f"threads that are free after {met} interrupts, and transactions that are open", [free, open_ones], [5, 0])
            self.told("branches that are prepared while it lives", self.world.look_at_doubt(), 0)
            program.communicate("\n", timeout=60)
        self.told("transactions that are at one database alone", self.at_one_alone(), 0)

    def at_one_alone(self):
        left, right = map(set, self.columns("SELECT gtrid FROM moved WHERE gtrid LIKE 'guards%'"))
        return len(left ^ right)

    def status(self):
        """A healthy program is looked at while it works."""
        path = f"{self.world.home}/guards.toml"
        with open(path, "w", encoding="utf-8") as it:
            it.write(f'log = "{self.log}"\nprogram = "{self.world.coordinator}"\n')
            for server in self.world.servers:
                kind = "mariadb" if isinstance(server, MariaDBServer) else "postgresql"
                it.write(f'[[database]]\nkind = "{kind}"\n{server.in_toml()}\n')
        # A look may take ten seconds, and longer on a busy machine.
        with self.started("under load", 600) as program:
            program.stdout.readline()
            words = [sys.executable, "-m", "garterfossil", "status", "--config", path]
            found = []
            for _ in range(5):
                done = subprocess.run(words, cwd=f"{TOP}/drivers/python", stdout=subprocess.PIPE, stderr=subprocess.STDOUT, check=False)
                found.append(done.returncode)
            program.kill()
        self.told("the status of a program under load, five times", found, [0] * 5)
        self.manager().close()


def other_at(server):
    """Another database of the same server: none of the log's."""
    if isinstance(server, PostgreSQLServer):
        return server.adapter()(f"host={server.home} port={server.port or 5432} user=xa dbname=template1", lock_timeout=2)
    return server.adapter()(unix_socket=server.socket(), user="bank", lock_timeout=2)


def run(world):
    """Prints each story. How many were wrong."""
    logging.getLogger("garterfossil").setLevel(logging.CRITICAL)
    guards = Guards(world)
    guards.another_database()
    guards.an_older_log()
    guards.branches_of_others()
    guards.other_names()
    guards.ended_by_hand()
    guards.put_back()
    guards.notifications()
    guards.ends_in_statements()
    guards.a_stopped_coordinator()
    guards.a_long_transaction()
    guards.stops()
    guards.interrupts()
    guards.status()
    found = world.look_at_doubt()
    print(f"guards: {guards.stories} stories, {guards.wrong} wrong, {found} in doubt at the end")
    return guards.wrong + found
