"""A whole driver in one file: transactions over PostgreSQL and MariaDB that `xatm serve --moves` conducts (docs/MOVES.md).

It makes the calls that it is told to make, and tells how they were answered. What the protocol asks for is the coordinator's to know."""

import concurrent.futures
import contextlib
import json
import pathlib
import re
import subprocess
import threading
import time

import psycopg2
import pymysql

#: Answers of the databases to the calls of XA, by their errors. A call that fails otherwise has no answer: the connection is given up.
POSTGRESQL = {"42704": -4, "40P01": 102, "40001": 107, "55P03": 106, "57014": 106, "23505": 103, "23514": 103}
MARIADB = {1397: -4, 1402: 100, 1613: 106, 1614: 102}


class Gone(Exception):
    """The coordinator has ended."""


class Shut(Exception):
    """A database lists what no session over this log began: somebody has to look first, and to remove `shut` beside the log."""


class Link:
    """A connection to a database, as a resource manager of XA."""

    def run(self, text, *words):
        with self.link.cursor() as cursor:
            cursor.execute(text, words or None)
            self.tag = getattr(cursor, "statusmessage", None)
            return cursor.fetchall() if cursor.description else []


class PostgreSQL(Link):
    """To PostgreSQL. The application_name `label` is this manager's alone."""

    def __init__(self, dsn, label):
        self.label, self.link = label, psycopg2.connect(dsn, application_name=label, options="-c lock_timeout=5000")
        self.link.autocommit, self.number = True, self.link.get_backend_pid()

    def numbers(self):
        return {pid for pid, in self.run("SELECT pid FROM pg_stat_activity WHERE application_name = %s", self.label)}

    def end(self, number):
        self.run("SELECT pg_terminate_backend(%s)", number)

    def start(self, xid):
        self.run("BEGIN")

    def call(self, verb, xid):
        statements = {"prepare": f"PREPARE TRANSACTION '{xid}'", "commit-at-once": "COMMIT", "undo": "ROLLBACK"}
        try:
            self.run(statements.get(verb) or f"{verb.upper()} PREPARED '{xid}'")
        except psycopg2.Error as error:
            if self.link.closed or error.pgcode not in POSTGRESQL:
                raise
            return POSTGRESQL[error.pgcode]
        # Of a transaction that failed, PREPARE TRANSACTION and COMMIT make a rollback, which only the tag tells.
        return 100 if verb in ("prepare", "commit-at-once") and self.tag == "ROLLBACK" else 0

    def listed(self):
        return [gid for gid, in self.run("SELECT gid FROM pg_prepared_xacts WHERE database = current_database()")]


class MariaDB(Link):
    """To MariaDB. Its user is this manager's alone."""

    def __init__(self, words, label):
        self.link = pymysql.connect(**words, autocommit=True, init_command="SET innodb_lock_wait_timeout = 5")
        self.number = self.link.thread_id()

    def numbers(self):
        return {it for it, in self.run("SELECT id FROM information_schema.processlist WHERE user=SUBSTRING_INDEX(CURRENT_USER(), '@', 1)")}

    def end(self, number):
        with contextlib.suppress(pymysql.err.OperationalError):  # It may have ended by itself.
            self.run(f"KILL CONNECTION {number}")

    def start(self, xid, verb="START", tail=""):
        number, gtrid, bqual = xid.split(":")
        self.run(f"XA {verb} X'{gtrid}',X'{bqual}',{number}{tail}")

    def call(self, verb, xid):
        is_first, at_once = verb in ("prepare", "commit-at-once", "undo"), verb == "commit-at-once"
        try:
            if is_first:
                self.start(xid, "END")
            self.start(xid, {"undo": "ROLLBACK", "commit-at-once": "COMMIT"}.get(verb, verb.upper()), " ONE PHASE" * at_once)
            return 0
        except pymysql.err.MySQLError as error:
            # MariaDB says that there is no such branch also of one whose connection is still there.
            if error.args[0] not in MARIADB or error.args[0] == 1397 and xid in self.listed():
                raise
            if is_first:
                self.start(xid, "ROLLBACK")
            return MARIADB[error.args[0]]

    def listed(self):
        found = (re.fullmatch(r"X'(\w+)',X'(\w+)',7", row[3]) for row in self.run("XA RECOVER FORMAT='SQL'"))
        return [f"7:{it[1]}:{it[2]}".lower() for it in found if it]


class Coordinator:
    """The coordinator's process, and one session with it."""

    def __init__(self, words, shut):
        self.process = subprocess.Popen(words, stdin=subprocess.PIPE, stdout=subprocess.PIPE, text=True, start_new_session=True)
        self.lock, self.is_gone, self.shut = threading.Lock(), False, shut
        while not self.ask().startswith("restarted "):
            pass

    def ask(self, *words):
        """The reply to a move; the next line, if there is none."""
        with self.lock:
            reply = ""
            with contextlib.suppress(OSError, ValueError):
                self.process.stdin.write(" ".join(map(str, words)) + "\n" * bool(words))
                self.process.stdin.flush()
                reply = self.process.stdout.readline().rstrip("\n")
        if reply.startswith("strange "):
            self.shut(reply)
        if reply.split(" ")[0] in ("", "stopped", "error", "strange"):
            self.is_gone = True
            self.process.kill()
            self.process.wait()
            raise Gone(f"{reply!r} to {words}")
        return reply


class Manager:
    """Transactions over databases: of each it is given a class and how it is reached. Threads are numbered from 1."""

    def __init__(self, program, log, databases, threads, name="conducted"):
        self.words = [program, "serve", "--moves", "--name", name, "--log", log, str(threads + 1), str(len(databases))]
        self.name, self.rms, self.threads, self.databases = name, range(len(databases)), range(threads + 1), databases
        self.mine, self.links, self.next, self.starting = f"7:{name.encode().hex()}", {}, {}, threading.Lock()
        self.pool, self.coordinator = concurrent.futures.ThreadPoolExecutor(threads * len(databases)), None
        self.beside = pathlib.Path(f"{log}-databases")
        self.session()
        threading.Thread(target=self.keep, daemon=True).start()

    def notes(self):
        """What the file beside the log says."""
        return json.loads(self.beside.read_text()) if self.beside.exists() else {"version": 1, "manager": self.name, "databases": []}

    def shut(self, why):
        """No session begins any more, in any process, until somebody has looked: a later one would take the branch for an old one."""
        new = pathlib.Path(f"{self.beside}.new")
        new.write_text(json.dumps(self.notes() | {"shut": why}))
        new.replace(self.beside)

    def session(self):
        """The session that is up, or the next one, which first recovers what can be reached."""
        with self.starting:
            while not self.coordinator or self.coordinator.is_gone:
                if why := self.notes().get("shut"):
                    raise Shut(why)
                for thread in self.threads:
                    self.drop(thread, *self.rms)
                try:
                    coordinator = Coordinator(self.words, self.shut)
                    for rm in self.rms:
                        self.recover(coordinator, rm)
                    self.coordinator = coordinator
                except Gone:
                    time.sleep(0.1)
            return self.coordinator

    def keep(self):
        while True:
            time.sleep(0.3)
            with contextlib.suppress(Gone):
                coordinator = self.session()
                for rm in coordinator.ask("due").split()[1:]:
                    self.recover(coordinator, int(rm))

    def link(self, thread, rm):
        if (thread, rm) not in self.links:
            kind, words = self.databases[rm]
            self.links[thread, rm] = kind(words, f"{self.name} {rm}")
        return self.links[thread, rm]

    def drop(self, thread, *rms):
        for link in filter(None, [self.links.pop((thread, rm), None) for rm in rms]):
            with contextlib.suppress(Exception):
                link.link.close()

    def made(self, thread, rm, verb, xid):
        """A call is made: how it was answered."""
        try:
            return -4 if verb == "forget" else self.links[thread, rm].call(verb, xid)
        except Exception:
            self.drop(thread, rm)
            return "lost"

    def recover(self, coordinator, rm):
        """Ends what is in doubt at a database, if it can be reached."""
        try:
            self.drop(0, rm)
            link = self.link(0, rm)
            while others := link.numbers() - {it.number for (_, at), it in list(self.links.items()) if at == rm}:
                for number in others:
                    link.end(number)
                time.sleep(0.01)
            listed = sorted(xid for xid in link.listed() if xid.startswith(self.mine))
        except Exception:
            return
        reply = coordinator.ask("recover", rm)
        while not reply.startswith(("recovered", "later")):
            verb, *words = reply.split()
            if verb == "recover":
                page, listed = listed[:32], listed[32:]
                reply = coordinator.ask("page", rm, *page)
            else:
                reply = coordinator.ask("end", rm, self.made(0, rm, verb[3:], words[0]))

    def run(self, thread, work):
        """Does `work` with a connection to each database in a transaction of the thread. The outcome, as the coordinator tells it."""
        fate, gtrid = "rolled-back", ""  # What it is, if the coordinator ends now; nothing, where the next session knows it.
        try:
            coordinator = self.session()
            gtrid = self.next.pop((thread, coordinator), "") or coordinator.ask("start", thread).split()[2]
            xids = [f"{self.mine}{gtrid}:{thread:08x}{rm:08x}" for rm in self.rms]
            reply = self.begun(coordinator, thread, xids, work)
            while not reply.startswith(("committed", "rolled-back", "unknown")):
                verb, *words = reply.split()
                answers = list(self.pool.map(lambda rm: self.made(thread, int(rm), verb, xids[int(rm)]), words))
                if verb == "prepare" and set(answers) <= {0, 3}:
                    fate = ""
                elif verb == "commit-at-once":
                    fate = {0: "committed", "lost": "unknown"}.get(answers[0], "rolled-back")
                reply = coordinator.ask("tell", thread, *answers)
                if verb == "prepare":
                    fate = "committed" if reply.startswith("commit") else "rolled-back"
            outcome, _, self.next[thread, coordinator] = reply.partition(" next ")
            return outcome
        except Gone:
            self.drop(thread, *self.rms)
        with contextlib.suppress(Gone):
            return fate or self.session().ask("fate", gtrid)
        return "unknown"

    def begun(self, coordinator, thread, xids, work):
        """Begins the branches, and does the work: what the coordinator then says."""
        try:
            for rm in self.rms:
                self.link(thread, rm).start(xids[rm])
        except Exception:
            self.drop(thread, *self.rms)
            return coordinator.ask("rollback", thread)
        reply = coordinator.ask("join", thread, *self.rms)
        try:
            work([self.links[thread, rm] for rm in self.rms])
        except Exception:
            return coordinator.ask("rollback", thread)
        return reply if reply.startswith("prepare") else coordinator.ask("commit", thread)
