"""Sessions and Core of SQLAlchemy within transactions, over SQLite as a stand-in. Where SQLAlchemy isn't installed they are left out."""

import asyncio
import os
import sys
import tempfile
import unittest
from concurrent.futures import ThreadPoolExecutor

from garterfossil import EndRefused, RolledBack, TransactionManager, TransactionOver

from .sqlite_database import SqliteDatabase

try:
    import sqlalchemy as sa
    from sqlalchemy import orm

    from garterfossil.sqlalchemy import create_engine
except ImportError:
    sa = None
else:
    Base = orm.declarative_base()

    class Account(Base):
        __tablename__ = "account"
        id = sa.Column(sa.Integer, primary_key=True)
        balance = sa.Column(sa.Integer)

    class Order(Base):
        __tablename__ = "orders"
        id = sa.Column(sa.Integer, primary_key=True)
        text = sa.Column(sa.String(40))


@unittest.skipIf(sa is None, "SQLAlchemy isn't installed")
class Sqlalchemy(unittest.TestCase):
    def setUp(self):
        folder = tempfile.TemporaryDirectory()
        self.addCleanup(folder.cleanup)
        log = os.path.join(folder.name, "log")
        self.paths = [os.path.join(folder.name, name) for name in ("bank", "shop")]
        for path in self.paths:
            plain = sa.create_engine(f"sqlite:///{path}")
            Base.metadata.create_all(plain)
            with orm.Session(plain) as session:
                session.add(Account(id=1, balance=100))
                session.commit()
            plain.dispose()
        command = [sys.executable, os.path.join(os.path.dirname(__file__), "fake_coordinator.py"), log]
        databases = [SqliteDatabase(path) for path in self.paths]
        self.xa = TransactionManager(databases, log, threads=2, patience=5.0, command=command)
        self.addCleanup(self.xa.close)
        # (The interface of SQLAlchemy 2.0, of 1.4 too.)
        self.bank, self.shop = create_engine(self.xa, 0, future=True), create_engine(self.xa, 1, future=True)
        self.Session = orm.sessionmaker(binds={Account: self.bank, Order: self.shop})

    def found(self):
        """What a connection of its own finds: the balance at the bank, and the orders at the shop."""
        found = []
        for path, query in zip(self.paths, ["SELECT balance FROM account", "SELECT text FROM orders ORDER BY id"]):
            plain = sa.create_engine(f"sqlite:///{path}")
            with plain.connect() as connection:
                found.append([value for value, in connection.execute(sa.text(query))])
            plain.dispose()
        return found

    def buy(self, session, text="tea"):
        session.get(Account, 1).balance -= 10
        session.add(Order(text=text))

    def test_a_session_over_two_databases_is_committed_at_both(self):
        with self.xa.transaction():
            with self.Session.begin() as session:
                self.buy(session)
        self.assertEqual(self.found(), [[90], ["tea"]])

    def test_what_a_session_commits_is_not_committed_before_the_block(self):
        with self.assertRaises(KeyError):
            with self.xa.transaction():
                with self.Session() as session:
                    self.buy(session)
                    session.commit()
                self.assertEqual(self.found(), [[100], []])
                raise KeyError
        self.assertEqual(self.found(), [[100], []])

    def test_core_at_two_databases(self):
        with self.xa.transaction():
            with self.bank.begin() as connection:
                connection.execute(sa.update(Account).values(balance=Account.balance - 10))
            with self.shop.connect() as connection:
                connection.execute(sa.insert(Order), [{"text": "tea"}, {"text": "milk"}])
                connection.commit()
        self.assertEqual(self.found(), [[90], ["tea", "milk"]])

    def test_a_rolled_back_session_is_taken_back_alone(self):
        with self.xa.transaction() as t:
            with self.Session.begin() as session:
                self.buy(session, "tea")
            with self.Session() as session:
                self.buy(session, "milk")
                session.flush()
                session.rollback()
            t[1].execute("INSERT INTO orders (text) VALUES ('bread')")
        self.assertEqual(self.found(), [[90], ["tea", "bread"]])

    def test_a_failed_flush_that_is_rolled_back(self):
        with self.xa.transaction():
            with self.Session.begin() as session:
                self.buy(session)
            with self.Session() as session, self.assertRaises(sa.exc.IntegrityError):
                session.add(Account(id=1, balance=0))
                session.commit()
        self.assertEqual(self.found(), [[90], ["tea"]])

    def test_savepoints_of_a_session(self):
        with self.xa.transaction():
            with self.Session.begin() as session:
                self.buy(session)
                with self.assertRaises(KeyError):
                    with session.begin_nested():
                        session.add(Order(text="milk"))
                        session.flush()
                        raise KeyError
        self.assertEqual(self.found(), [[90], ["tea"]])

    def test_a_session_that_the_block_leaves_open_rolls_everything_back(self):
        with self.assertRaisesRegex(RolledBack, "isn't committed"):
            with self.xa.transaction() as t:
                t[1].execute("INSERT INTO orders (text) VALUES ('bread')")
                session = self.Session()
                session.get(Account, 1).balance -= 10
                session.flush()
        session.close()
        self.assertEqual(self.found(), [[100], []])

    def test_what_a_session_never_flushed_rolls_everything_back(self):
        with self.assertRaisesRegex(RolledBack, "Order that it never flushed"):
            with self.xa.transaction():
                a, b = self.Session(), self.Session()
                a.get(Account, 1).balance -= 10
                b.add(Order(text="tea"))
                a.commit()
        self.assertEqual(self.found(), [[100], []])
        b.close()

    def test_an_object_that_was_added_before_the_block_and_never_flushed(self):
        session = self.Session()
        session.add(Order(text="tea"))
        with self.assertRaisesRegex(RolledBack, "never flushed"):
            with self.xa.transaction() as t:
                t[0].execute("UPDATE account SET balance = 0")
        session.close()
        self.assertEqual(self.found(), [[100], []])

    def test_what_another_engine_never_flushed_is_no_matter_of_the_transaction(self):
        plain = sa.create_engine(f"sqlite:///{self.paths[0]}")
        with orm.Session(plain) as session, self.xa.transaction() as t:
            session.add(Account(id=2, balance=0))
            t[1].execute("INSERT INTO orders (text) VALUES ('bread')")
        plain.dispose()
        self.assertEqual(self.found(), [[100], ["bread"]])

    def test_the_sessions_of_other_threads_are_no_matter_of_the_transaction(self):
        with self.xa.transaction() as t:
            with ThreadPoolExecutor(1) as pool:
                session = self.Session()
                pool.submit(session.add, Order(text="tea")).result()
            t[1].execute("INSERT INTO orders (text) VALUES ('bread')")
        session.close()
        self.assertEqual(self.found(), [[100], ["bread"]])

    def test_a_session_that_is_closed_without_a_commit_is_taken_back(self):
        with self.xa.transaction() as t:
            t[1].execute("INSERT INTO orders (text) VALUES ('bread')")
            with self.Session() as session:
                self.buy(session)
                session.flush()
        self.assertEqual(self.found(), [[100], ["bread"]])

    def test_an_outer_session_cannot_be_taken_back_alone_after_an_inner_one(self):
        with self.assertRaisesRegex(RolledBack, "can't be taken back alone"):
            with self.xa.transaction():
                outer = self.Session()
                outer.add(Order(text="tea"))
                outer.flush()
                with self.Session.begin() as inner:
                    inner.add(Order(text="milk"))
                outer.rollback()
        self.assertEqual(self.found(), [[100], []])

    def test_work_is_done_again_after_a_deadlock_that_a_savepoint_took_back(self):
        for statement, tries in (("SELECT * FROM nothing", 2), ("INSERT INTO account VALUES (1, 0)", 1)):
            done = []

            def work(t):
                with self.Session.begin() as session:
                    self.buy(session)
                    done.append(1)
                    if len(done) == 1:
                        session.execute(sa.text(statement), bind_arguments={"mapper": Account})

            try:
                self.xa.run(work)
            except sa.exc.IntegrityError:
                pass
            self.assertEqual(len(done), tries)
        self.assertEqual(self.found(), [[90], ["tea"]])

    def test_a_session_on_the_thread_of_a_transaction_of_asyncio(self):
        def work(t):
            with self.Session.begin() as session:
                self.buy(session)

        async def buys():
            async with self.xa.transaction_async() as t:
                await t.run(work)

        asyncio.run(buys())
        self.assertEqual(self.found(), [[90], ["tea"]])

    def test_outside_of_a_block_there_is_no_connection(self):
        with self.assertRaises(TransactionOver):
            with self.Session.begin() as session:
                self.buy(session)
        with self.xa.transaction():
            with self.Session.begin() as session:
                self.buy(session)
        with self.assertRaises(TransactionOver):
            self.bank.connect()
        self.assertEqual(self.found(), [[90], ["tea"]])

    def test_a_commit_after_the_block_is_refused(self):
        session = self.Session()
        with self.assertRaises(RolledBack):
            with self.xa.transaction():
                self.buy(session)
                session.flush()
        with self.assertRaises(TransactionOver):
            session.commit()
        session.close()
        self.assertEqual(self.found(), [[100], []])

    def test_a_session_that_outlives_its_block_works_in_the_next_one(self):
        session = self.Session()
        for text in ("tea", "milk"):
            with self.xa.transaction():
                self.buy(session, text)
                session.commit()
        session.close()
        self.assertEqual(self.found(), [[80], ["tea", "milk"]])

    def test_what_would_end_or_change_the_transaction_is_refused(self):
        with self.xa.transaction():
            with self.assertRaises(EndRefused):
                self.bank.connect().execution_options(isolation_level="AUTOCOMMIT")
            with self.assertRaises(EndRefused):
                self.bank.connect().begin_twophase()
            with self.bank.connect() as connection, self.assertRaises(EndRefused):
                connection.execute(sa.text("COMMIT"))
            raw = self.bank.raw_connection()
            raw.cursor().execute("UPDATE account SET balance = 0")
            raw.commit()
            self.assertEqual(self.found(), [[100], []])
        self.assertEqual(self.found(), [[0], []])


if __name__ == "__main__":
    unittest.main()
