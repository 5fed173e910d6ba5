"""MariaDB's adapter, over a stand-in for PyMySQL and a server with the ways of MariaDB 10.11 that matter here: it answers
XAER_NOTA for a prepared branch whose connection lives, and it prepares what is left of a branch after a failed statement."""

import os
import re
import socket
import sys
import tempfile
import types
import unittest
from unittest import mock

from garterfossil import OutcomeUnknown, TransactionManager
from garterfossil.adapters.base import Options, Place
from garterfossil.adapters.mariadb import MariaDB
from garterfossil.codes import Code
from garterfossil.errors import ConnectionLost, SetupError, Unanswered
from garterfossil.xid import Xid

from .fake_database import FakeDatabase

XID = "7:00000000000000010000000000000001:0000000000000000"

pymysql = types.ModuleType("pymysql")
pymysql.err = types.ModuleType("pymysql.err")
pymysql.constants = types.ModuleType("pymysql.constants")
pymysql.constants.COMMAND = types.SimpleNamespace(COM_QUERY=3)
pymysql.cursors = types.SimpleNamespace(Cursor=None)


class MySQLError(Exception):
    pass


pymysql.err.MySQLError = MySQLError
for name in ("InterfaceError", "OperationalError", "IntegrityError"):
    setattr(pymysql.err, name, type(name, (MySQLError,), {}))


class Server:
    """Branches by the text of their identifier, each with its state and the connection that has it."""

    def __init__(self):
        self.branches, self.links, self.fails, self.done = {}, {}, {}, []
        #: By its name, the connection that holds a lock.
        self.locks = {}
        self.is_in_cluster, self.row = False, 0
        self.variables, self.tables = {"innodb_flush_log_at_trx_commit": "1"}, []
        self.identity, self.uid, self.may_create = None, "AbC=", True
        #: What XA RECOVER lists besides, of other programs.
        self.others = []
        #: Of what it warns as it rolls a branch back.
        self.warnings = []

    def connect(self, **parameters):
        link = Link(self, len(self.links) + 1)
        self.links[link.number] = link
        return link

    def end(self, link):
        """A connection ends: its prepared branch can be ended from any other one."""
        self.links.pop(link.number, None)
        link.other_end.close()
        self.locks = {name: holder for name, holder in self.locks.items() if holder is not link}
        for text, (state, owner) in list(self.branches.items()):
            if owner is link:
                if state == "PREPARED":
                    self.branches[text] = state, None
                else:
                    del self.branches[text]


class Link:
    def __init__(self, server, number):
        self.server, self.number, self.statements = server, number, []
        self._sock, self.other_end = socket.socketpair()
        self._result = types.SimpleNamespace(warning_count=0)

    def thread_id(self):
        return self.number

    def close(self):
        self.server.end(self)
        self._sock.close()

    def cursor(self, kind=None):
        return Cursor(self)

    def query(self, statement):
        Cursor(self).execute(statement)
        self._result.warning_count = len(self.server.warnings) if statement.startswith("XA ROLLBACK") else 0

    def _execute_command(self, command, statement):
        """The server does it at once, and says so later."""
        self.said = None
        try:
            self.query(statement)
        except MySQLError as error:
            self.said = error

    def _read_query_result(self):
        if self.said:
            raise self.said

    def send_query(self, statement):
        """(mysqlclient's names for the two.)"""
        self._execute_command(3, statement)

    read_query_result = _read_query_result


def error(number):
    return pymysql.err.OperationalError(number, "an error")


class Cursor:
    def __init__(self, link):
        self.link, self.server, self.rows, self.rowcount = link, link.server, [], 0
        self.description, self.lastrowid = [("column",)], link.server.row

    def __enter__(self):
        return self

    def __exit__(self, *_):
        pass

    def fetchall(self):
        return tuple(self.rows)

    def execute(self, statement, parameters=None):
        if self.link.number not in self.server.links:
            raise error(2013)
        self.link.statements.append(statement)
        if statement in self.server.fails:
            raise self.server.fails[statement]
        xa = re.fullmatch(r"XA (\w+) (X'.*?',X'.*?',7)( ONE PHASE)?", statement)
        if statement == "XA RECOVER FORMAT='SQL'":
            self.rows = self.server.others + [(7, 16, 8, text) for text, (state, _) in self.server.branches.items() if state == "PREPARED"]
        elif statement.startswith("SHOW GLOBAL VARIABLES WHERE"):
            self.rows = list(self.server.variables.items())
        elif statement.startswith("SELECT TABLE_NAME, ENGINE"):
            self.rows = self.server.tables
        elif statement == "SHOW GLOBAL VARIABLES LIKE 'server_uid'":
            self.rows = [("server_uid", self.server.uid)] if self.server.uid else []
        elif statement.startswith("SELECT id FROM garterfossil_identity"):
            if self.server.identity is None:
                raise error(1146)
            self.rows = [(self.server.identity,)]
        elif statement.startswith("CREATE SQL SECURITY INVOKER VIEW"):
            if not self.server.may_create:
                raise error(1142)
            self.server.identity = self.server.identity or statement.split("'")[1]
        elif statement == "SHOW WARNINGS":
            self.rows = self.server.warnings
        elif statement == "SHOW VARIABLES LIKE 'wsrep_on'":
            self.rows = [("wsrep_on", "ON" if self.server.is_in_cluster else "OFF")]
        elif statement.startswith("SELECT GET_LOCK("):
            name = statement.split("'")[1]
            self.rows = [(int(self.server.locks.setdefault(name, self.link) is self.link),)]
        elif statement.startswith("SELECT IS_USED_LOCK("):
            holders = [self.server.locks.get(name) for name in statement.split("'")[1::2]]
            self.rows = [tuple(holder and holder.number for holder in holders)]
        elif statement.startswith("KILL CONNECTION "):
            self.server.end(self.server.links[int(statement.split(" ")[2])])
        elif xa:
            self.xa(xa[1], xa[2], bool(xa[3]))

    def xa(self, verb, text, is_one_phase):
        state, owner = self.server.branches.get(text, (None, None))
        if verb == "START":
            if state is not None:
                raise error(1440)
            self.server.branches[text] = "ACTIVE", self.link
        elif state is None or owner not in (None, self.link):
            raise error(1397)
        elif state == "ROLLBACK ONLY" and verb != "ROLLBACK":
            raise error(1399)
        elif verb in ("END", "PREPARE"):
            self.server.branches[text] = {"END": "IDLE", "PREPARE": "PREPARED"}[verb], self.link
        elif verb == "COMMIT" and (state == "PREPARED") == is_one_phase:
            raise error(1399)
        else:
            self.server.done.append(f"XA {verb} {text}")
            del self.server.branches[text]


class MariaDBs(unittest.TestCase):
    def setUp(self):
        self.server = Server()
        pymysql.connect = self.server.connect
        patch = mock.patch.dict(sys.modules, {"pymysql": pymysql, "pymysql.err": pymysql.err, "pymysql.constants": pymysql.constants})
        patch.start()
        self.addCleanup(patch.stop)
        self.database = MariaDB(user="bank", database="bank")
        self.connection = self.database.connect()

    def do(self, verb, connection=None):
        return (connection or self.connection).do(verb, Xid.parse(XID))

    def worked(self):
        self.do("start")
        self.connection.execute("UPDATE account")

    def test_a_branch_that_is_prepared_and_committed(self):
        self.worked()
        self.assertIs(self.do("prepare"), Code.OK)
        self.assertIs(self.do("commit"), Code.OK)
        self.assertIs(self.do("commit"), Code.NOTA)

    def test_a_branch_whose_connection_lives_is_not_told_to_be_over(self):
        self.worked()
        self.do("prepare")
        other = self.database.connect()
        for verb in ("commit", "rollback"):
            with self.assertRaises(Unanswered):
                self.do(verb, other)
        self.database.end_connections([other.number])
        self.assertIs(self.do("commit", other), Code.OK)

    def test_connections_of_others_are_not_ended(self):
        """Those of the manager's other databases, of managers of other names, and of programs with the same user."""
        others = [self.database.connect(Place("", 1)), self.database.connect(Place("shop", 0)), self.database.connect(Place("Shop", 0))]
        plain = self.server.connect()
        stray = self.database.connect(Place("shop", 1))
        self.assertEqual(self.database.end_connections([], Place("shop", 1)), 1)
        self.assertEqual(self.database.end_connections([], Place("shop", 0)), 1)
        left = {self.connection.number, others[0].number, others[2].number, plain.number}
        self.assertEqual(set(self.server.links), left)
        self.assertNotIn(stray.number, left)

    def test_a_connection_that_is_refused_for_good(self):
        for number, kind in ((1045, SetupError), (1049, SetupError), (1044, SetupError), (2003, ConnectionLost), (1040, ConnectionLost)):
            with mock.patch.object(pymysql, "connect", mock.Mock(side_effect=error(number))), self.assertRaises(kind):
                self.database.connect()

    def test_what_is_the_drivers_own_cannot_be_given(self):
        with self.assertRaisesRegex(ValueError, "autocommit"):
            MariaDB(autocommit=True)

    def test_how_a_transaction_is_to_run_is_said_before_it_begins(self):
        self.connection.options = Options("read committed", True)
        self.do("start")
        self.assertEqual(self.connection.link.statements[-2], "SET TRANSACTION ISOLATION LEVEL READ COMMITTED, READ ONLY")

    def test_the_databases_error_is_kept_with_the_vote(self):
        self.server.fails["UPDATE account"] = fault = error(4025)
        self.do("start")
        with self.assertRaises(MySQLError):
            self.connection.execute("UPDATE account")
        self.assertIs(self.do("prepare"), Code.RBINTEGRITY)
        self.assertIs(self.connection.reason, fault)

    def test_a_table_that_keeps_what_is_rolled_back_is_warned_of(self):
        """It may be one that was made since the tables were looked at."""
        kept, other = ("Warning", 1196, "Some non-transactional changed tables couldn't be rolled back"), ("Note", 1051, "of something else")
        with self.assertLogs("garterfossil", "WARNING") as logged:
            for warning, verbs in ((kept, ["rollback"]), (kept, ["prepare", "rollback"]), (other, ["rollback"])):
                self.server.warnings = [warning]
                self.worked()
                for verb in verbs:
                    self.do(verb)
        self.assertEqual([f"{XID} is rolled back" in line and "keeps it" in line for line in logged.output], [True, True])

    def test_a_call_that_is_sent_ahead_is_answered_once(self):
        self.worked()
        for verb in ("prepare", "commit"):
            self.assertTrue(self.connection.send(verb, Xid.parse(XID)))
            self.assertIs(self.do(verb), Code.OK)
        self.assertEqual([statement.split(" ")[1] for statement in self.connection.link.statements[-3:]], ["END", "PREPARE", "COMMIT"])

    def test_connections_that_are_kept_are_not_ended(self):
        kept, stray = self.database.connect(), self.database.connect()
        self.database.end_connections([self.connection.number, kept.number])
        self.assertEqual(sorted(self.server.links), [self.connection.number, kept.number])
        with self.assertRaises(ConnectionLost):
            self.do("start", stray)

    def test_a_failed_statement_is_the_vote_although_mariadb_would_prepare(self):
        for number, vote in ((4025, Code.RBINTEGRITY), (1205, Code.RBTIMEOUT), (1064, Code.RBOTHER)):
            self.server.fails["UPDATE account"] = error(number)
            self.do("start")
            with self.assertRaises(MySQLError):
                self.connection.execute("UPDATE account")
            self.assertIs(self.connection.fault, vote)
            self.assertIs(self.do("prepare"), vote)
            self.assertEqual(self.server.branches, {})

    def test_a_later_statement_of_a_text_that_failed_is_told_as_what_it_is(self):
        """PyMySQL reads its answer as the next statement is sent, which is XA END."""
        self.worked()
        link, fault = self.connection.link, pymysql.err.IntegrityError(1062, "duplicate")
        query, left = link.query, [fault]

        def queries(statement):
            if left:
                raise left.pop()
            query(statement)

        link.query = queries
        self.assertIs(self.do("prepare"), Code.RBINTEGRITY)
        self.assertIs(self.connection.reason, fault)
        self.assertEqual(self.server.branches, {})

    def test_a_result_has_the_number_that_its_row_got(self):
        self.do("start")
        self.server.row = 7
        result = self.connection.execute("INSERT INTO account")
        self.assertEqual((list(result.columns), result.lastrowid), (["column"], 7))

    def test_a_broken_constraint_is_told_by_the_kind_of_error(self):
        self.server.fails["UPDATE account"] = pymysql.err.IntegrityError(1062, "duplicate")
        self.do("start")
        with self.assertRaises(MySQLError):
            self.connection.execute("UPDATE account")
        self.assertIs(self.connection.fault, Code.RBINTEGRITY)

    def test_a_deadlock(self):
        self.server.fails["UPDATE account"] = error(1213)
        self.do("start")
        text, = self.server.branches
        self.server.branches[text] = "ROLLBACK ONLY", self.server.links[self.connection.number]
        with self.assertRaises(MySQLError):
            self.connection.execute("UPDATE account")
        self.assertIs(self.do("prepare"), Code.RBDEADLOCK)
        self.assertEqual(self.server.branches, {})

    def test_one_phase(self):
        self.worked()
        self.assertIs(self.do("commit-at-once"), Code.OK)
        self.assertEqual(self.server.branches, {})

    def test_one_phase_without_an_answer(self):
        self.worked()
        text, = self.server.branches
        self.server.fails[f"XA COMMIT {text} ONE PHASE"] = error(1180)
        with self.assertRaises(Unanswered):
            self.do("commit-at-once")

    def test_a_branch_of_another_log(self):
        self.worked()
        self.assertIs(self.do("start", self.database.connect()), Code.DUPID)

    def test_branches_of_other_programs_are_listed_as_what_they_are(self):
        # As MariaDB 10.11 writes them: a format of 1 and an empty part are left out, and plain text stands as it is.
        self.server.others = [
            (1, 15, 0, "'another program'"), (5, 1, 1, "'g','b',5"), (1, 2, 1, "X'00ff',X'62'"), (4, 2, 1, "X'2278',X'79',4"),
        ]  # fmt: skip
        self.worked()
        self.do("prepare")
        self.assertEqual([str(xid) for xid in self.connection.all_listed()], ["1:00ff:62", "4:2278:79", "5:67:62", XID])
        self.assertEqual([str(xid) for xid in self.connection.listed()], [XID])

    def test_each_connection_is_set_up_by_the_program_and_has_the_password_of_the_moment(self):
        given, seen, passwords = [], [], iter(["first", "second"])
        pymysql.connect = lambda **parameters: given.append(parameters["password"]) or self.server.connect()
        database = MariaDB(user="bank", password=lambda: next(passwords), on_connect=seen.append)
        for _ in range(2):
            database.connect().close()
        self.assertEqual((given, len(seen)), (["first", "second"], 2))

    def test_what_may_be_lost(self):
        self.assertEqual(self.connection.see_durable(), [])
        self.server.variables["innodb_flush_log_at_trx_commit"] = "2"
        self.server.tables = [("old", "MyISAM")]
        flush, tables = self.connection.see_durable()
        self.assertIn("innodb_flush_log_at_trx_commit = 2", flush)
        self.assertIn("old (MyISAM)", tables)
        self.server.variables["innodb_flush_log_at_trx_commit"] = "0"
        with self.assertRaisesRegex(SetupError, "innodb_flush_log_at_trx_commit"):
            self.connection.see_durable()

    def test_a_database_has_an_identity_of_its_own_from_its_first_use(self):
        first = self.connection.identity(None)
        self.assertEqual(self.database.connect().identity(first), first)
        self.assertIn(self.server.identity, first)
        self.server.identity = None
        self.assertNotEqual(self.connection.identity(first), first)

    def test_where_none_can_be_made_it_is_the_servers(self):
        self.server.may_create = False
        kept = self.connection.identity(None)
        self.assertIn("AbC=", kept)
        # It stays that, also if one could be made by now.
        self.server.may_create = True
        self.assertEqual(self.connection.identity(kept), kept)
        self.server.may_create, self.server.uid = False, None
        self.assertIsNone(self.connection.identity(None))

    def test_a_connection_that_is_lost(self):
        self.worked()
        self.server.end(self.server.links[self.connection.number])
        with self.assertRaises(ConnectionLost):
            self.do("prepare")

    def test_a_cluster_is_no_database_of_transactions(self):
        self.server.is_in_cluster = True
        with self.assertRaisesRegex(SetupError, "Galera"):
            self.database.connect()

    def test_a_mirror_in_a_cluster_reads_what_other_nodes_have_committed(self):
        waits = "SET SESSION wsrep_sync_wait = 1"
        self.connection.serve_mirror()
        self.assertNotIn(waits, self.connection.link.statements)
        self.server.is_in_cluster = True
        connection = self.database.connect(Place(threads=0))
        connection.serve_mirror()
        self.assertIn(waits, connection.link.statements)


class Recovery(unittest.TestCase):
    """A driver stops after its decision and keeps its connections. The next one has to end them before it looks: to a
    coordinator that is told XAER_NOTA the branch is over, and its row leaves the log."""

    def test_a_decided_branch_whose_connection_still_lives(self):
        server, other = Server(), FakeDatabase()
        pymysql.connect = server.connect
        with mock.patch.dict(sys.modules, {"pymysql": pymysql, "pymysql.constants": pymysql.constants}), tempfile.TemporaryDirectory() as folder:
            log = os.path.join(folder, "log")
            command = [sys.executable, os.path.join(os.path.dirname(__file__), "fake_coordinator.py"), log, "decided"]
            database = MariaDB(user="bank")
            manager = TransactionManager([database, other], log, threads=1, patience=2.0, command=command)
            with self.assertRaises(OutcomeUnknown):
                with manager.transaction() as t:
                    t[0].execute("UPDATE account")
                    t[1].execute("give")
                    # It would close its connections; a frozen one doesn't.
                    frozen, t[0]._line.close = t[0]._line.connection, lambda: None
            self.assertEqual([state for state, owner in server.branches.values()], ["PREPARED"])
            self.assertIn(frozen.number, server.links)
            with manager:
                with manager.transaction():
                    pass
            self.assertEqual(server.branches, {})
            self.assertEqual(other.written, ["give"])
            self.assertIn("XA COMMIT", " ".join(server.done))
            self.assertNotIn("XA ROLLBACK", " ".join(server.done))


if __name__ == "__main__":
    unittest.main()
