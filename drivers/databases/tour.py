"""Stories over two databases: how a transaction ends if everything goes well, and if something goes wrong at each of its
moments. Each is looked at in the databases."""

import logging
import os
import subprocess
import threading
import time

from garterfossil import Code, HeuristicEnd, Outcome, OutcomeUnknown, RolledBack, SetupError, XaError, Xid
from garterfossil.adapters.base import Place
from garterfossil.adapters.postgresql import PostgreSQL
from moments import before_a_call, before_a_move, behind_the_decision, beside
from proxy import Proxy
from world import ACCOUNTS

BOTH, NEITHER = [True, True], [False, False]
SECOND_ONE = "INSERT INTO once VALUES (1)"
BEHIND, ACKNOWLEDGED = "behind the decision", "behind the acknowledgements"
#: For how many seconds a database that goes silent is waited for.
PATIENCE = 2.0


def when(moment):
    return moment if moment in (BEHIND, ACKNOWLEDGED) else f"before {moment}"


class Tour:
    def __init__(self, world):
        self.world = world
        self.stories = self.wrong = 0
        self.frozen = []
        world.prepare()
        self.xa = world.manager(2)

    # ** what is looked at

    def holds(self, gtrid):
        """Whether each database has the work of the transaction."""
        found = []
        for server in self.world.servers:
            connection = server.database().connect()
            found.append(bool(connection.run("SELECT 1 FROM moved WHERE gtrid = %s", [gtrid]).rows))
            connection.close()
        return found

    def told(self, name, t, wanted):
        # On a busy machine what is owed comes later than the half second for which a block waits.
        until = time.monotonic() + 10
        while self.xa.counts()["owed"] and time.monotonic() < until:
            time.sleep(0.05)
        found = self.holds(t.gtrid)
        self.stories += 1
        self.wrong += found != wanted
        print(f"{'ok   ' if found == wanted else 'WRONG'} {name}: {t.outcome.value}, {found}", flush=True)

    # ** how it is worked

    def write(self, t, *rms):
        for rm in rms:
            t[rm].execute("INSERT INTO moved VALUES (%s, 1)", [t.gtrid])

    def at(self, moment, do, xa=None):
        """Has something done at a moment: before the first call or move of this name, after the decision to commit, or once both have
        acknowledged and the coordinator hasn't heard of it."""
        xa = xa or self.xa
        if moment == BEHIND:
            behind_the_decision(xa, do)
        elif moment == ACKNOWLEDGED:
            behind_the_decision(xa, lambda: before_a_move(xa, "tell", do))
        elif moment == "prepare":
            before_a_call(xa, moment, do)
        else:
            before_a_move(xa, moment, do)

    def lose(self, t, rm):
        """The connection of a branch is ended at the database, and what it had under way with it."""
        line = t._hands.parts[rm].line
        self.world.servers[rm].database().end_connections(beside(self.xa, line), line.rm.place)

    # ** stories

    def goes_well(self):
        with self.xa.transaction() as t:
            self.write(t, 0, 1)
        self.told("all goes well", t, BOTH)
        for rm in (0, 1):
            with self.xa.transaction() as t:
                self.write(t, rm)
            self.told(f"database {rm} alone: one phase", t, [rm == 0, rm == 1])

    def only_reads(self):
        for rm, server in enumerate(self.world.servers):
            if isinstance(server.database(), PostgreSQL):
                with self.xa.transaction() as t:
                    t[rm].execute("SELECT count(*) FROM moved")
                    self.write(t, 1 - rm)
                self.told(f"database {rm} only reads", t, [rm == 1, rm == 0])

    def fails(self):
        try:
            with self.xa.transaction() as t:
                self.write(t, 0, 1)
                raise KeyError
        except KeyError:
            self.told("the program fails", t, NEITHER)
        for rm in (0, 1):
            for statement in (SECOND_ONE, "UPDATE account SET balance = -1000000000 WHERE id = 1", "no statement"):
                try:
                    with self.xa.transaction() as t:
                        self.write(t, 0, 1)
                        try:
                            t[rm].execute(statement)
                        except XaError:
                            raise
                        except Exception:
                            pass
                    self.told("never here", t, NEITHER)
                except RolledBack as error:
                    self.told(f"database {rm} refuses a statement, and the program goes on: {error}", t, NEITHER)

    def deadlock(self, name, rms):
        """Two transactions change the same two accounts, in turn."""
        ended = []

        def work(steps):
            try:
                with self.xa.transaction() as t:
                    ended.append(t)
                    self.write(t, 0, 1)
                    for rm, account in steps:
                        t[rm].execute("UPDATE account SET balance = balance + 1 WHERE id = %s", [account])
                        time.sleep(0.5)
            except Exception:
                pass

        threads = [threading.Thread(target=work, args=[steps]) for steps in ([(rms[0], 1), (rms[1], 2)], [(rms[1], 2), (rms[0], 1)])]
        for thread in threads:
            thread.start()
        for thread in threads:
            thread.join()
        for t in ended:
            self.told(f"a deadlock {name}", t, BOTH if t.outcome.value == "committed" else NEITHER)

    def connections_are_lost(self):
        moments = [("prepare", NEITHER), ("tell", BOTH), (BEHIND, BOTH)]
        for rm in (0, 1):
            for moment, wanted in moments:
                try:
                    with self.xa.transaction() as t:
                        self.write(t, 0, 1)
                        self.at(moment, lambda: self.lose(t, rm))
                except RolledBack:
                    pass
                self.told(f"the connection to database {rm} is lost {when(moment)}", t, wanted)

    def databases_go_down(self):
        for rm, server in enumerate(self.world.servers):
            for moment, wanted in [("prepare", NEITHER), ("tell", BOTH), (BEHIND, BOTH)]:
                self.xa.close()
                self.xa = self.world.manager(2, patience=1.0)
                try:
                    with self.xa.transaction() as t:
                        self.write(t, 0, 1)
                        self.at(moment, server.kill)
                except RolledBack:
                    pass
                server.start()
                self.goes_on()
                self.told(f"database {rm} is killed {when(moment)}", t, wanted)

    def coordinator_ends(self):
        for moment, wanted in [("prepare", NEITHER), ("tell", NEITHER), (BEHIND, BOTH), (ACKNOWLEDGED, BOTH)]:
            try:
                with self.xa.transaction() as t:
                    self.write(t, 0, 1)
                    self.at(moment, self.xa._session.coordinator.kill)
            except (RolledBack, OutcomeUnknown):
                self.see(f"the outcome is found after the coordinator is killed {when(moment)}", self.is_found(t, wanted))
            self.goes_on()
            self.told(f"the coordinator is killed {when(moment)}", t, wanted)

    def is_found(self, t, wanted):
        """Whether what nobody could tell is what the log says later."""
        return t.outcome is not Outcome.UNKNOWN or (self.xa.outcome(t.gtrid) is Outcome.COMMITTED) == (wanted == BOTH)

    def freeze(self, t, xa):
        """A driver stops, and keeps its connections."""
        for line in t._thread.lines:
            self.frozen.append(line.connection)
            line.connection = None
        xa._session.coordinator.kill()

    def driver_is_frozen(self):
        """A driver stops after its decision and keeps its connections. The next one has to end them before it looks."""
        with self.xa.transaction() as t:
            self.write(t, 0, 1)
            self.at(BEHIND, lambda: self.freeze(t, self.xa))
        self.goes_on()
        self.told("a driver is frozen behind its decision, and the next one goes on", t, BOTH)

    # ** what a user may try first

    def one_server_twice(self):
        """Both databases of a manager are one, which lists the branches of both, and knows one user."""
        for number, server in enumerate(self.world.servers):
            for end in ("goes well", "is killed"):
                with self.world.manager(2, databases=[server.database(), server.database()], name=f"twice-{number}") as xa:
                    with xa.transaction() as t:
                        mark = f"{number} {end}"
                        t[0].execute("INSERT INTO moved VALUES (%s, 1)", [mark])
                        t[1].execute("INSERT INTO alone VALUES (%s)", [mark])
                        if end == "is killed":
                            self.at(BEHIND, lambda: self.freeze(t, xa), xa)
                    with xa.transaction():
                        pass
                self.see(f"database {number} twice in one manager, which {end}", self.in_one(server, mark) == BOTH)

    def in_one(self, server, mark):
        connection = server.database().connect()
        found = [bool(connection.run(f"SELECT 1 FROM {table} WHERE gtrid = %s", [mark]).rows) for table in ("moved", "alone")]
        connection.close()
        return found

    def others_stay(self):
        """Other programs with the same user keep their connections."""
        for rm, server in enumerate(self.world.servers):
            other = server.database().connect(Place("another", rm))
            plain = server.plain()
            self.xa.close()
            self.xa = self.world.manager(2)
            self.goes_on()
            with plain.cursor() as cursor:
                cursor.execute("SELECT 1")
            self.see(f"a start leaves other connections of the user of database {rm} alone", other.run("SELECT 1").rows == [(1,)])
            other.close()
            plain.close()

    def idle_connections_end(self):
        for rm, server in enumerate(self.world.servers):
            self.goes_on()
            place = self.xa._session._rms[rm].place
            server.database().end_connections([], place)
            with self.xa.transaction() as t:
                self.write(t, 0, 1)
            self.told(f"the connections to database {rm} are ended while nothing is done", t, BOTH)

    def set_up_wrongly(self):
        for rm, server in enumerate(self.world.servers):
            for database in server.wrong_databases():
                databases = self.world.databases()
                databases[rm] = database
                try:
                    self.world.manager(2, databases=databases, name="wrong").close()
                    self.see(f"{database} is refused", False)
                except SetupError as error:
                    self.see(f"{database} is refused: {error}", True)

    def new_logs(self):
        """A log that is lost, while a branch that it has decided is prepared."""
        with self.world.manager(2, name="lost") as xa:
            with xa.transaction() as t:
                # A log of its own counts its transactions anew.
                for rm in (0, 1):
                    t[rm].execute("INSERT INTO moved VALUES ('lost', 1)")
                self.at(BEHIND, lambda: self.freeze(t, xa), xa)
            xa._is_closed = True
        kept = f"{self.world.home}/lost.db"
        os.rename(kept, f"{kept}.kept")
        for _ in range(3):
            try:
                self.world.manager(2, name="lost").close()
                self.see("a new log over branches of a lost one is refused", False)
            except SetupError as error:
                self.see(f"a new log over branches of a lost one is refused: {error}", True)
        os.rename(f"{kept}.kept", kept)
        self.world.manager(2, name="lost").close()
        self.see("the log that was lost is put back, and what it decided is committed", self.holds("lost") == BOTH)

    def transactions_have_options(self):
        for rm in (0, 1):
            try:
                with self.xa.transaction(read_only=True, isolation="serializable") as t:
                    t[rm].execute("SELECT count(*) FROM moved")
                    self.write(t, rm)
                self.see(f"database {rm} refuses what writes in a transaction that is read only", False)
            except XaError:
                self.see(f"database {rm} refuses what writes in a transaction that is read only", False)
            except Exception as error:
                self.see(f"database {rm} refuses what writes in a transaction that is read only: {error}", True)
            with self.xa.transaction() as t:
                self.write(t, rm)
            self.told(f"the next one at database {rm} isn't read only", t, [rm == 0, rm == 1])
            self.sees_what_commits(rm, "read committed", True)
            self.sees_what_commits(rm, "repeatable read", False)

    def sees_what_commits(self, rm, isolation, wanted):
        """Whether a transaction sees what another commits meanwhile."""
        count = "SELECT count(*) FROM moved"
        with self.xa.transaction(isolation=isolation) as t:
            before = t[rm].execute(count).rows
            with self.xa.transaction(independent=True) as other:
                self.write(other, rm)
            after = t[rm].execute(count).rows
        self.see(f"{isolation} at database {rm}", (before != after) == wanted)

    def streams(self):
        """A module's cursor of rows that stay with the server, in a transaction that writes."""
        for rm, server in enumerate(self.world.servers):
            with self.xa.transaction() as t:
                self.write(t, 0, 1)
                with server.streaming_cursor(t[rm]) as cursor:
                    cursor.execute("SELECT id FROM account ORDER BY id")
                    found = [number for number, in cursor]
            self.see(f"rows of database {rm} are streamed", found == list(range(ACCOUNTS)))
            self.told(f"what streamed rows of database {rm}", t, BOTH)

    def see(self, name, is_so):
        self.stories += 1
        self.wrong += not is_so
        print(f"{'ok   ' if is_so else 'WRONG'} {name}", flush=True)

    # ** a network that goes silent

    def networks_go_silent(self):
        """No block outlasts three times the patience, and no start twice."""
        self.xa.close()
        proxies = [Proxy(server.socket()) for server in self.world.servers]
        databases = [server.database_at(proxy.port) for server, proxy in zip(self.world.servers, proxies)]
        for rm, proxy in enumerate(proxies):
            for moment, wanted in [("work", NEITHER), ("prepare", NEITHER), ("tell", BOTH), (BEHIND, BOTH)]:
                self.xa = self.world.manager(2, PATIENCE, databases)
                seconds, t = self.silent_in(moment, rm, proxy)
                self.in_time(f"a block whose database {rm} goes silent {when(moment)}", seconds, 3 * PATIENCE)
                proxy.speak()
                self.goes_on()
                self.told(f"database {rm} goes silent {when(moment)}", t, wanted)
                self.xa.close()
            self.silent_start(rm, proxy, databases)
        for proxy in proxies:
            proxy.close()
        self.xa = self.world.manager(2)

    def silent_in(self, moment, rm, proxy):
        begun = time.monotonic()
        try:
            with self.xa.transaction(timeout=PATIENCE) as t:
                self.write(t, 0, 1)
                if moment == "work":
                    proxy.silence()
                    self.write(t, rm)
                self.at(moment, proxy.silence)
        except (RolledBack, XaError):
            pass
        return time.monotonic() - begun, t

    def silent_start(self, rm, proxy, databases):
        proxy.silence()
        begun = time.monotonic()
        self.xa = self.world.manager(2, PATIENCE, databases)
        self.in_time(f"a start while database {rm} is silent", time.monotonic() - begun, 2 * PATIENCE)
        begun = time.monotonic()
        with self.xa.transaction() as t:
            self.write(t, 1 - rm)
        self.in_time(f"a transaction at database {1 - rm} alone meanwhile", time.monotonic() - begun, PATIENCE)
        proxy.speak()
        self.goes_on()
        self.xa.close()

    def in_time(self, name, seconds, most):
        self.stories += 1
        self.wrong += seconds > most
        print(f"{'ok   ' if seconds <= most else 'WRONG'} {name}: {seconds:.1f} seconds, at most {most:.1f}", flush=True)

    def goes_on(self):
        """The next transaction of the same program; and what is due is recovered beside it."""
        time.sleep(1.1)
        with self.xa.transaction() as t:
            self.write(t, 0, 1)
        until = time.monotonic() + 15
        while self.xa.counts()["owed"] and time.monotonic() < until:
            time.sleep(0.05)
        if self.holds(t.gtrid) != BOTH:
            self.told("the next transaction", t, BOTH)

    def claims(self):
        """Requests that no move leads to: a claim, and a recovery in the middle of a session. They are asked for line by line."""
        for end, wanted in (("settle", BOTH), ("abandon", NEITHER), ("resolve-open", NEITHER)):
            with Asked(self.world) as session:
                session.prepare_both()
                if end == "resolve-open":
                    session.resolve_open()
                else:
                    session.ask(f"claim {session.gtrid}")
                    session.ask(f"{end} {session.gtrid}")
                    for rm in (0, 1):
                        session.call(1, rm, f"xa_{'commit' if end == 'settle' else 'rollback'} {session.gtrid}")
            found = self.holds(f"asked{session.gtrid}")
            self.stories += 1
            self.wrong += found != wanted
            print(f"{'ok   ' if found == wanted else 'WRONG'} {end}: {found}", flush=True)

    def ended_by_hand(self):
        """An administrator rolls a prepared branch back, against the decision. Neither database tells."""
        def by_hand():
            connection = self.world.servers[0].database().connect()
            connection._roll_back_prepared(t[0].xid)
            connection.close()

        raised = "nothing was raised"
        try:
            with self.xa.transaction() as t:
                self.write(t, 0, 1)
                self.at(BEHIND, by_hand)
        except HeuristicEnd as error:
            raised = str(error)
        self.stories += 1
        print(f"told  a branch is rolled back by hand, against the decision: {self.holds(t.gtrid)}; {raised}")


class Asked:
    """A session that is asked for requests (docs/SERVE.md), with a connection for each of its lines, over a log of its own."""

    def __init__(self, world):
        self.world, self.connections = world, {}
        command = [world.coordinator, "serve", "--name", "asked", "--log", f"{world.home}/asked.db", "2", "2"]
        self.process = subprocess.Popen(command, stdin=subprocess.PIPE, stdout=subprocess.PIPE, text=True)
        while not self.process.stdout.readline().startswith("restarted "):
            pass
        self.gtrid = self.ask("begin 1").split(" ")[1]

    def __enter__(self):
        return self

    def __exit__(self, *_):
        self.process.communicate("quit\n")
        for connection in self.connections.values():
            connection.close()

    def ask(self, request):
        self.process.stdin.write(f"{request}\n")
        self.process.stdin.flush()
        reply = self.process.stdout.readline().rstrip("\n")
        if reply.startswith(("refused", "error", ";")) or not reply:
            raise ValueError(f"{request}: {reply}")
        return reply

    def open(self, thread, rm):
        self.ask(f"issue {thread} {rm} xa_open")
        self.connections[thread, rm] = self.world.servers[rm].database().connect(Place("asked", rm))
        self.ask(f"answer {thread} {rm} xa_open 0")

    def call(self, thread, rm, text):
        """Issues a call, and makes it."""
        return self.make(thread, rm, self.ask(f"issue {thread} {rm} {text}").partition(" ")[2])

    def make(self, thread, rm, text):
        """Makes a call, and tells the answer. (The driver's own make xa_end with what comes after it.)"""
        name, *words = text.split(" ")
        connection = self.connections[thread, rm]
        if name == "xa_recover":
            xids = connection.listed()
            told = " ".join([name, str(len(xids)), *map(str, xids)])
        else:
            code = Code.OK if name == "xa_end" else connection.do(name[3:], Xid.parse(words[0]))
            told = f"{name} {words[0]} {code:d}"
        self.ask(f"answer {thread} {rm} {told}")

    def prepare_both(self):
        for rm in (0, 1):
            self.open(1, rm)
            self.call(1, rm, f"xa_start {self.gtrid}")
            self.connections[1, rm].execute("INSERT INTO moved VALUES (%s, 1)", [f"asked{self.gtrid}"])
        for call in ("xa_end {} TMSUCCESS", "xa_prepare {}"):
            for rm in (0, 1):
                self.call(1, rm, call.format(self.gtrid))

    def resolve_open(self):
        """Both branches are rolled back while they are open, from the first thread's lines. MariaDB lets no other connection end a branch
        while its own one lives."""
        for rm in (0, 1):
            database = self.world.servers[rm].database()
            database.end_connections([], Place("asked", rm))
            self.ask(f"crash line 1 {rm}")
            self.open(0, rm)
            self.call(0, rm, "xa_recover 32 TMSTARTRSCAN TMENDRSCAN")
            for _ in range(int(self.ask(f"resolve-open {rm}").split(" ")[1])):
                self.make(0, rm, self.ask(f"waiting 0 {rm}").partition(" ")[2])


def run(world):
    """Prints each story. How many were wrong."""
    logging.getLogger("garterfossil").setLevel(logging.CRITICAL)
    tour = Tour(world)
    tour.goes_well()
    tour.only_reads()
    tour.fails()
    tour.deadlock("within a database", (1, 1))
    tour.deadlock("over two databases", (0, 1))
    tour.claims()
    tour.connections_are_lost()
    tour.coordinator_ends()
    tour.driver_is_frozen()
    tour.databases_go_down()
    tour.networks_go_silent()
    tour.one_server_twice()
    tour.transactions_have_options()
    tour.streams()
    tour.others_stay()
    tour.idle_connections_end()
    tour.set_up_wrongly()
    tour.new_logs()
    tour.ended_by_hand()
    tour.xa.close()
    found = world.look_at_doubt()
    print(f"tour: {tour.stories} stories, {tour.wrong} wrong, {found} in doubt at the end")
    return tour.wrong + found
