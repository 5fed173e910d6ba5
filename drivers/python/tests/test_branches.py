"""What a branch gives out: statements, cursors and a connection, which do nothing once it isn't the one that is active."""

import sys
import threading
import unittest

from garterfossil import EndRefused, RolledBack, TransactionManager, TransactionOver
from garterfossil.statements import MARIADB, POSTGRESQL

from .case import COORDINATOR, Case
from .fake_database import FakeDatabase, WrongStatement


class Branches(Case):
    def setUp(self):
        super().setUp()
        self.bank, self.shop = FakeDatabase(), FakeDatabase()
        command = [sys.executable, COORDINATOR, self.log]
        self.xa = TransactionManager({"bank": self.bank, "shop": self.shop}, self.log, threads=1, patience=1.0, command=command)
        self.addCleanup(self.xa.close)

    # ** kept after the end

    def kept(self):
        """A branch of a transaction that is over, with a cursor and a connection that it gave out."""
        with self.xa.transaction() as t:
            branch = t[0]
            cursor, connection = branch.cursor(), branch.connection
            cursor.execute("mine")
        return branch, cursor, connection

    def test_a_branch_that_is_kept_does_nothing_in_the_next_transaction(self):
        branch, cursor, connection = self.kept()
        with self.xa.transaction() as t:
            t[0].execute("the next one's")
            for use in (
                lambda: branch.execute("late"),
                lambda: branch.cursor(),
                lambda: cursor.execute("late"),
                lambda: cursor.executemany("late", [()]),
                lambda: cursor.fetchone(),
                lambda: list(cursor),
                lambda: setattr(cursor, "arraysize", 10),
                lambda: connection.cursor(),
            ):
                with self.assertRaises(TransactionOver):
                    use()
        self.assertEqual(self.bank.written, ["mine", "the next one's"])

    def test_rows_that_are_streamed_are_not_asked_for_in_the_next_transaction(self):
        with self.xa.transaction() as t:
            rows = t[0].cursor().stream("mine")
            self.assertEqual(next(rows), ("mine",))
        with self.xa.transaction() as t:
            t[0].execute("the next one's")
            with self.assertRaises(TransactionOver):
                next(rows)
            with self.assertRaises(EndRefused):
                t[0].cursor().stream("COMMIT")
        self.assertEqual(self.bank.written, ["mine", "the next one's"])

    def test_a_branch_that_another_thread_keeps_does_nothing_while_its_connection_is_in_use(self):
        branch, _, _ = self.kept()
        raised = []

        def late():
            try:
                branch.execute("late")
            except TransactionOver as error:
                raised.append(error)

        with self.xa.transaction() as t:
            t[0].execute("the next one's")
            thread = threading.Thread(target=late)
            thread.start()
            thread.join()
        self.assertEqual(len(raised), 1)
        self.assertEqual(self.bank.written, ["mine", "the next one's"])

    def test_a_transaction_that_is_over_gives_no_branch(self):
        with self.xa.transaction() as t:
            t[0].execute("mine")
        for key in (0, 1, "bank"):
            with self.assertRaises(TransactionOver):
                t[key]

    def test_no_work_is_done_between_the_vote_and_the_decision(self):
        with self.xa.transaction() as t:
            branch = t[0]
            branch.execute("take")
            t[1].execute("give")
            post = self.xa._session.coordinator.post

            def late(*words, **more):
                if words[0].startswith("tell "):
                    with self.assertRaises(TransactionOver):
                        branch.execute("late")
                return post(*words, **more)

            self.xa._session.coordinator.post = late
        self.assertEqual(self.bank.written, ["take"])

    # ** cursors and connections

    def test_a_cursor_is_the_modules(self):
        with self.xa.transaction() as t:
            with t[0].cursor() as cursor:
                cursor.execute("take")
                self.assertEqual((cursor.description, cursor.rowcount), ([("statement",)], 1))
                self.assertEqual(list(cursor), [("take",)])
                cursor.executemany("give %d", [(1,), (2,)])
            self.assertEqual(t[0].connection.encoding, "UTF8")
        self.assertEqual(self.bank.written, ["take", "give 1", "give 2"])

    def test_a_statement_that_fails_in_a_cursor_is_a_no(self):
        with self.assertRaises(RolledBack) as raised:
            with self.xa.transaction() as t:
                t[1].execute("give")
                with self.assertRaises(WrongStatement):
                    t[0].cursor().execute("wrong")
        self.assertIsInstance(raised.exception.__cause__, WrongStatement)
        self.assertEqual((self.bank.written, self.shop.written), ([], []))

    def test_a_connection_does_not_end_the_transaction(self):
        with self.xa.transaction() as t:
            connection = t[0].connection
            connection.cursor().execute("take")
            for end in (connection.commit, connection.rollback, connection.close, connection.__enter__):
                with self.assertRaises(EndRefused):
                    end()
            with self.assertRaises(EndRefused):
                connection.autocommit = False
            with self.assertRaises(AttributeError):
                connection.connection
        self.assertEqual(self.bank.written, ["take"])
        self.assertNotIn("commit of the module", self.bank.calls)

    # ** statements that would end the transaction

    def test_a_statement_that_ends_the_transaction_is_not_sent(self):
        with self.xa.transaction() as t:
            t[0].execute("take")
            cursor = t[0].cursor()
            for send in (t[0].execute, cursor.execute, lambda text: cursor.executemany(text, [()])):
                for text in ("COMMIT", "UPDATE account; ROLLBACK"):
                    with self.assertRaises(EndRefused):
                        send(text)
        self.assertEqual(self.bank.written, ["take"])

    def test_what_a_transaction_changes_in_its_session_no_other_one_meets(self):
        for text in ("SET ROLE clerk", "take; SET my.tenant = '7'", "/* for */ USE other", "RESET ROLE"):
            with self.xa.transaction() as t:
                changed = t[0]._connection
                t[0].cursor().execute(text)
            with self.xa.transaction() as t:
                self.assertIsNot(t[0]._connection, changed)
            self.assertTrue(changed.is_lost)
        for text in ("SET LOCAL my.tenant = '7'", "SET /* . */ TRANSACTION READ ONLY", "UPDATE account SET balance = 1"):
            with self.xa.transaction() as t:
                kept = t[0]._connection
                t[0].execute(text)
            with self.xa.transaction() as t:
                self.assertIs(t[0]._connection, kept)

    def test_a_savepoint_takes_back_what_its_block_did(self):
        with self.xa.transaction() as t:
            with t[0].savepoint():
                t[0].execute("take")
            with self.assertRaises(KeyError):
                with t[0].savepoint():
                    t[0].execute("take more")
                    raise KeyError
        self.assertEqual(
            self.bank.written,
            [
                "SAVEPOINT garterfossil_block_1", "take", "RELEASE SAVEPOINT garterfossil_block_1",
                "SAVEPOINT garterfossil_block_2", "take more", "ROLLBACK TO SAVEPOINT garterfossil_block_2",
            ],
        )  # fmt: skip

    def refused(self, texts, statements):
        """Those of the statements that are refused."""
        found = []
        for statement in statements:
            try:
                texts.refuse_ends(statement)
            except EndRefused:
                found.append(statement)
        return found

    def test_statements_that_end_a_transaction_or_begin_one(self):
        both = [
            "commit", " COMMIT WORK;", "ROLLBACK", "BEGIN", "START  TRANSACTION", "PREPARE TRANSACTION 'x'", "END", "ABORT",
            "XA END 'x'", "SET autocommit = 1", "SET @a = 1, @@autocommit = 0", "SELECT 1; COMMIT", "COMMIT; BEGIN",
            "-- a comment\nCOMMIT", "/* one */ COMMIT", "PREPARE/* a */TRANSACTION 'x'", "START -- a\n TRANSACTION",
            "SELECT 'a;b'; rollback to a; rollback",
        ]  # fmt: skip
        for texts in (POSTGRESQL, MARIADB):
            self.assertEqual(self.refused(texts, both), both)
        own = [
            "/* a /* b */ c */ COMMIT", "/* /* /* x */ */ */ COMMIT", "SELECT 1 /* /* /* ; */ */ */; COMMIT", "DO $a$ ; $a$; COMMIT",
            "SELECT E'\\'' ; COMMIT", "-- x\rCOMMIT", "SELECT 1 AS a$b$; COMMIT; SELECT 1 AS c$b$",
            "SELECT 1 AS \u20ac$b$; COMMIT; SELECT 1 AS c$b$",
        ]  # fmt: skip
        own += ["CREATE FUNCTION f() RETURNS int BEGIN ATOMIC SELECT 1; END; END"]
        self.assertEqual(self.refused(POSTGRESQL, own), own)
        own = [
            "# a comment\nCOMMIT", "/*!40000 COMMIT */", "SELECT 'it\\'s'; COMMIT", "SELECT `;`; COMMIT",
            "BEGIN NOT ATOMIC SELECT 1; COMMIT; END", "BEGIN NOT ATOMIC SELECT 1; END; XA END 'x'",
        ]  # fmt: skip
        self.assertEqual(self.refused(MARIADB, own), own)

    def test_statements_that_end_none(self):
        both = [
            "SAVEPOINT a", "ROLLBACK TO a", "ROLLBACK WORK TO SAVEPOINT a", "RELEASE SAVEPOINT a", "PREPARE a AS SELECT 1",
            "UPDATE account SET balance = 1", "SELECT 'COMMIT; COMMIT'", "UPDATE a; UPDATE b;", "SET TRANSACTION READ ONLY",
            "SELECT 1 -- ; COMMIT", "SELECT \"; COMMIT\"", "SELECT 1 /* ; COMMIT */", "",
        ]  # fmt: skip
        for texts in (POSTGRESQL, MARIADB):
            self.assertEqual(self.refused(texts, both), [])
        own = [
            "DO $$ BEGIN; COMMIT; END $$", "SELECT E'\\'; COMMIT'", "SELECT '\\'",
            "SELECT 1 /* /* ; */ COMMIT; */", "SELECT $1$b$; COMMIT $b$",
            "CREATE FUNCTION f() RETURNS int BEGIN ATOMIC SELECT 1; SELECT 2; END",
        ]  # fmt: skip
        self.assertEqual(self.refused(POSTGRESQL, own), [])
        own = ["SELECT 'it\\'s; COMMIT'", "SELECT `a; COMMIT`", "SELECT 1--1", "BEGIN NOT ATOMIC SELECT 1",
            "BEGIN NOT ATOMIC IF 1 THEN SELECT 1; END IF; SELECT 2; END",
        ]  # fmt: skip
        self.assertEqual(self.refused(MARIADB, own), [])

    # ** names

    def test_a_database_is_known_by_its_name_and_by_its_number(self):
        with self.xa.transaction() as t:
            self.assertIs(t["bank"], t[0])
            t["shop"].execute("give")
        self.assertEqual(self.shop.written, ["give"])

    def test_a_database_that_is_none_is_refused_by_name(self):
        with self.xa.transaction() as t:
            t[0].execute("take")
            for key in (-1, 2):
                with self.assertRaisesRegex(IndexError, "their numbers are 0 to 1"):
                    t[key]
            with self.assertRaisesRegex(KeyError, "their names bank, shop"):
                t["bnak"]
            with self.assertRaises(TypeError):
                t[None]
        self.assertEqual(self.bank.written, ["take"])


if __name__ == "__main__":
    unittest.main()
