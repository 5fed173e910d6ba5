"""The transaction manager's life: what it is given, how it starts, what it does for transactions, and its end."""

import contextlib
import json
import logging
import os
import signal
import threading
import time
import unittest
from unittest import mock

from garterfossil import (
    Code,
    ConnectionLost,
    CoordinatorGone,
    LogInUse,
    NestedTransaction,
    Outcome,
    OutcomeUnknown,
    Overdue,
    RolledBack,
    SetupError,
    TimedOut,
    TransactionManager,
    XaError,
    Xid,
)

from .case import Case
from .fake_database import WrongStatement


class Given(Case):
    """What a manager is made with."""

    def test_what_is_not_a_list_of_databases(self):
        for databases, kind in ((self.left, TypeError), (["left"], TypeError), ([], ValueError), ([self.left, self.left], ValueError)):
            with self.assertRaisesRegex(kind, "databases"):
                TransactionManager(databases, self.log)

    def test_counts_that_are_out_of_range(self):
        for options in ({"threads": 0}, {"threads": 1025}, {"patience": 0}, {"name": "a b"}, {"name": "x" * 17}):
            with self.assertRaisesRegex(ValueError, list(options)[0]):
                self.manager(**options)

    def test_a_program_that_is_not_there(self):
        with self.assertRaisesRegex(SetupError, "program="):
            TransactionManager([self.left], self.log, program="/no/such/xatm")


class Logs(Case):
    """A log that can't be had is said at once, in the program's own words."""

    def refused(self, said, text, status=2, patience=20.0, kind=SetupError):
        program = os.path.join(self.folder, "refuses")
        with open(program, "w") as it:
            it.write(f"#!/bin/sh\necho '{said}' >&2\nexit {status}\n")
        os.chmod(program, 0o755)
        begun = time.monotonic()
        with self.assertRaisesRegex(kind, text):
            TransactionManager([self.left], self.log, patience=patience, program=program)
        return time.monotonic() - begun

    def test_what_the_program_says_of_it(self):
        for has_log in (False, True):
            for said, status in (("no such folder", 6), ("that is a folder", 6), ("not a decision log", 6), ("it is shut: ..", 8)):
                self.assertLess(self.refused(f"xatm: log: log: {said}", said, status), 5)
            self.refused("xatm: a.db: Permission denied", "Permission denied")
            # From now on it is looked at before the start.
            with open(self.log, "w") as it:
                it.write("a log")

    def test_a_log_in_use_is_waited_for(self):
        self.assertGreater(self.refused("xatm: a.db: in use by another process", "in use by another program", 5, 0.5, LogInUse), 0.5)

    def test_one_that_cannot_be_written_is_not_said_to_be_in_use(self):
        program = os.path.join(self.folder, "shows_a_copy")
        with open(program, "w") as it:
            it.write("#!/bin/sh\necho incarnation 3\necho 'xatm: log: another process runs over it, or it cannot be written' >&2\n")
        os.chmod(program, 0o755)
        with open(self.log, "w") as it:
            it.write("a log")
        with mock.patch("os.access", lambda path, how: False), self.assertRaisesRegex(SetupError, "can't be written"):
            TransactionManager([self.left], self.log, program=program)


class Starts(Case):
    def left_behind(self, number=0):
        """A branch that an earlier log's manager has prepared."""
        xid = Xid(7, (5).to_bytes(8, "big") + (9).to_bytes(8, "big"), number.to_bytes(8, "big"))
        (self.left, self.right)[number].prepared[xid] = ["take"]
        return xid

    def test_a_new_log_over_databases_that_list_branches_is_refused_at_every_start(self):
        xid = self.left_behind()
        for _ in range(3):
            with self.assertRaisesRegex(SetupError, "the log is new, and database 0 lists 1 branches"):
                self.manager()
        self.assertFalse(os.path.exists(self.log))
        self.assertEqual(list(self.left.prepared), [xid])

    def test_a_new_log_asks_for_all_databases_once(self):
        self.right.is_up = False
        with self.assertRaisesRegex(ConnectionLost, "the log is new"):
            self.manager(patience=0.2)
        self.assertFalse(os.path.exists(self.log))

    def test_branches_of_other_names_and_of_other_databases_stay(self):
        others = [
            Xid(7, b"shop-2" + bytes(15) + b"\1", bytes(8)),
            Xid(7, bytes(15) + b"\1", bytes(7) + b"\1"),
            Xid(1, b"somebody's", b"own"),
        ]
        self.left.prepared.update({xid: ["take"] for xid in others})
        with self.manager() as xa:
            self.move(xa)
        self.assertEqual(list(self.left.prepared), others)

    def test_a_log_that_is_older_than_the_branches_is_refused(self):
        self.manager().close()
        self.left_behind()
        with self.assertRaisesRegex(SetupError, "database 0 lists .*, which no session over this log began"):
            self.manager()
        self.assertEqual(len(self.left.prepared), 1)

    def test_a_database_that_is_set_up_wrongly_is_said_at_the_start(self):
        self.manager().close()
        self.right.refuses = SetupError("password authentication failed")
        with self.assertRaisesRegex(SetupError, "password"):
            self.manager()

    def test_two_databases_of_one_server_are_recovered(self):
        self.left.prepared = self.right.prepared
        with self.manager(dies_at="decided") as xa:
            with self.assertRaises(OutcomeUnknown):
                self.move(xa)
        self.assertEqual(len(self.right.prepared), 2)
        self.manager().close()
        self.assertEqual(self.written(), (["take"], ["give"]))
        self.assertEqual(self.right.prepared, {})

    def test_what_a_recovery_did_is_logged(self):
        with self.manager(dies_at="decided") as xa:
            with self.assertRaises(OutcomeUnknown):
                self.move(xa)
        with self.assertLogs("garterfossil", logging.INFO) as logged:
            self.manager().close()
        self.assertEqual(len([line for line in logged.output if "xa_commit" in line and "answered OK" in line]), 2)


class Runs(Case):
    def test_a_transaction_within_another_of_the_same_thread(self):
        with self.manager() as xa:
            with xa.transaction() as t:
                t[0].execute("take")
                with self.assertRaises(NestedTransaction):
                    with xa.transaction():
                        pass
                with xa.transaction(independent=True) as other:
                    other[1].execute("give")
            self.move(xa)
        self.assertEqual(self.written(), (["take", "take"], ["give", "give"]))

    def test_a_process_that_is_forked_off(self):
        with self.manager() as xa:
            with xa.transaction() as t:
                # Unwritten requests are the parent's to write, and the child is to say so at once.
                t[0].execute("take")
                child = os.fork()
                if child == 0:
                    self.in_the_child(xa)
                self.assertEqual(os.waitstatus_to_exitcode(os.waitpid(child, 0)[1]), 7)
            self.move(xa)
        self.assertEqual(self.written(), (["take", "take"], ["give"]))

    def in_the_child(self, xa):
        try:
            with xa.transaction(independent=True):
                pass
        except XaError as error:
            xa.close()
            os._exit(7 if f"made in process {os.getppid()}" in str(error) else 1)
        finally:
            os._exit(2)

    def test_the_databases_reason_is_the_cause(self):
        with self.manager() as xa:
            with self.assertRaises(RolledBack) as raised:
                with xa.transaction() as t:
                    t[0].execute("take")
                    t[1].execute("give")
                    t._hands.parts[1].connection.reason = reason = WrongStatement("the reason")
                    self.right.next["prepare"] = Code.RBDEADLOCK
            self.assertIs(raised.exception.__cause__, reason)
            self.assertEqual((raised.exception.database, raised.exception.code), (1, Code.RBDEADLOCK))
            self.assertIn("the reason", str(raised.exception))

    def test_a_deadlock_can_be_told_from_a_constraint(self):
        with self.manager() as xa:
            for code, is_passing in ((Code.RBDEADLOCK, True), (Code.RBTRANSIENT, True), (Code.RBINTEGRITY, False), (Code.RBOTHER, False)):
                self.right.next["prepare"] = code
                with self.assertRaises(RolledBack) as raised:
                    with xa.transaction() as t:
                        t[0].execute("take")
                        t[1].execute("give")
                self.assertEqual((t.is_worth_trying_again, raised.exception.is_worth_trying_again), (is_passing, is_passing))

    def test_work_is_tried_again_after_a_deadlock_and_not_after_a_constraint(self):
        tried = []

        def work(t):
            tried.append(t.gtrid)
            t[0].execute("take")
            t[1].execute("give")
            return len(tried)

        with self.manager() as xa:
            self.right.next["prepare"] = Code.RBDEADLOCK
            self.assertEqual(xa.run(work), 2)
            self.right.next["prepare"] = Code.RBINTEGRITY
            with self.assertRaises(RolledBack):
                xa.run(work)
        self.assertEqual(len(tried), 3)
        self.assertEqual(self.written(), (["take"], ["give"]))

    def test_a_transaction_that_outlasts_its_timeout(self):
        with self.manager() as xa:
            with self.assertRaises(RolledBack) as raised:
                with xa.transaction(timeout=0.05) as t:
                    t[0].execute("take")
                    time.sleep(0.06)
                    with self.assertRaises(TimedOut):
                        t[1].execute("give")
            self.assertIs(raised.exception.code, Code.RBTIMEOUT)
        self.assertEqual(self.written(), ([], []))

    def test_a_transaction_that_waits_for_something_else_keeps_no_locks_after_its_timeout(self):
        with self.manager() as xa:
            with self.assertRaises(RolledBack) as raised:
                with xa.transaction(timeout=1.0) as t:
                    t[0].execute("take")
                    t[1].execute("give")
                    for database in (self.left, self.right):
                        database.connections[-1].server.settimeout(3)
                        # The database sees that the connection is ended.
                        self.assertEqual(database.connections[-1].server.recv(1), b"")
            self.assertIs(raised.exception.code, Code.RBTIMEOUT)
            self.move(xa)
        self.assertEqual(self.written(), (["take"], ["give"]))

    def test_a_statement_that_outlasts_the_timeout(self):
        with self.manager() as xa:
            begun = time.monotonic()
            with self.assertRaises(RolledBack) as raised:
                with xa.transaction(timeout=0.2) as t:
                    t[0].execute("take")
                    branch = t[1]
                    self.right.connections[-1].is_silent = True
                    with self.assertRaises(TimedOut):
                        branch.execute("give")
            self.assertLess(time.monotonic() - begun, 5)
            self.assertIs(raised.exception.code, Code.RBTIMEOUT)
        self.assertEqual(self.written(), ([], []))

    def test_how_a_transaction_is_to_run_is_for_that_one_alone(self):
        with self.manager(threads=1) as xa:
            for options in ({"isolation": "serializable", "read_only": True}, {}):
                with xa.transaction(**options) as t:
                    t[0].execute("look")
            with self.assertRaises(ValueError):
                with xa.transaction(isolation="SNAPSHOT"):
                    pass
        self.assertEqual(self.left.modes, [["ISOLATION LEVEL SERIALIZABLE", "READ ONLY"], []])

    def test_the_outcome_is_found_after_the_coordinator_ended(self):
        for moment, outcome in (("decided", Outcome.COMMITTED), ("votes", Outcome.ROLLED_BACK)):
            with self.manager(dies_at=moment) as xa:
                with self.assertRaises(OutcomeUnknown):
                    with xa.transaction() as t:
                        t[0].execute("take")
                        t[1].execute("give")
                self.assertIs(xa.outcome(t.gtrid), outcome)
                self.assertIs(xa.outcome("0" * 32), Outcome.UNKNOWN)
            os.remove(self.log)

    def test_a_connection_that_the_database_ended_while_it_was_idle(self):
        with self.manager(threads=1) as xa:
            self.move(xa)
            self.left.connections[-1].hang_up()
            self.move(xa)
        self.assertEqual(self.written(), (["take", "take"], ["give", "give"]))

    def test_a_decided_branch_that_is_not_there_any_more_is_told(self):
        with self.manager(dies_at="decided") as xa:
            with self.assertRaises(OutcomeUnknown):
                self.move(xa)
            self.left.prepared.clear()
            with self.assertLogs("garterfossil", logging.WARNING) as logged:
                self.move(xa)
        self.assertRegex("".join(logged.output), "database 0 has 1 branches no more that are decided to commit")

    def test_a_branch_that_was_ended_by_hand_is_logged(self):
        with self.manager() as xa:
            with self.assertLogs("garterfossil", logging.ERROR) as logged:
                with self.assertRaises(XaError):
                    with xa.transaction() as t:
                        t[0].execute("take")
                        t[1].execute("give")
                        self.right.next["commit_prepared"] = Code.HEURRB
        self.assertIn(t.gtrid, logged.output[-1])
        self.assertIn("database 1", logged.output[-1])

    def test_counts(self):
        ended = []
        with self.manager(ended=ended.append) as xa:
            self.move(xa)
            with self.assertRaises(KeyError):
                with xa.transaction() as t:
                    self.assertEqual(xa.counts()["open"], 1)
                    raise KeyError
            counts = xa.counts()
        self.assertEqual([counts[name] for name in ("begun", "open", "committed", "rolled_back", "unknown")], [2, 0, 1, 1, 0])
        self.assertEqual([it.outcome for it in ended], [Outcome.COMMITTED, Outcome.ROLLED_BACK])

    def test_metrics_as_prometheus_reads_them(self):
        with self.manager() as xa:
            self.move(xa)
            with self.assertRaises(WrongStatement), xa.transaction() as t:
                t[0].execute("wrong")
            self.right.before["commit_prepared"] = lambda: (time.sleep(0.2), lines.extend(xa.metrics().splitlines()))
            lines, found = [], {}
            self.move(xa)
            with xa.transaction():
                lines += xa.metrics().splitlines()
                found = json.loads(xa.metrics("json"))
        for line in (
            'garterfossil_transactions_total{outcome="committed"} 2', 'garterfossil_rolled_back_total{code="RBINTEGRITY"} 1', "garterfossil_open 1", "garterfossil_threads 2",
            "garterfossil_incarnation 1", 'garterfossil_database_owed{database="1"} 0', "# TYPE garterfossil_open gauge",
        ):  # fmt: skip
            self.assertIn(line, lines)
        [age] = [line.split(" ")[1] for line in lines if 'prepared_seconds{database="1"}' in line][:1]
        self.assertGreater(float(age), 0.2)
        self.assertEqual(found["transactions_total"][0], {"outcome": "committed", "value": 2})
        [seconds] = [one["value"] for one in found["database_call_seconds_total"] if one["database"] == "1"]
        self.assertGreater(seconds, 0.2)
        self.assertIn("garterfossil_open 0", xa.metrics().splitlines())

    def test_no_call_is_made_before_it_is_told(self):
        """What docs/MOVES.md asks for: each is made once, after the reply that tells it."""
        events = []
        with self.manager(threads=1) as xa:
            coordinator = xa._session.coordinator
            wait = coordinator.wait

            def waits(reply):
                words = wait(reply)
                events.extend([rm, f"{words.split(' ')[0]} is told"] for rm in words.split(" ")[1:])
                return words

            coordinator.wait = waits
            for number, database in enumerate((self.left, self.right)):
                database.called = lambda name, number=number: events.append([str(number), name])
            for _ in range(2):
                self.move(xa)
        for rm in ("0", "1"):
            for told, made in (("prepare is told", "prepare"), ("commit is told", "commit_prepared")):
                self.assertEqual([event[1] for event in events if event in ([rm, told], [rm, made])], [told, made] * 2)


class Durable(Case):
    """Databases that may lose what they have voted for."""

    def test_what_may_be_lost_is_warned_of_once(self):
        self.left.worries = ["fsync = off: all may be lost"]
        with self.assertLogs("garterfossil", logging.WARNING) as logged:
            with self.manager() as xa:
                self.move(xa)
                xa._session.coordinator.kill()
                self.move(xa)
        self.assertEqual(len([line for line in logged.output if "fsync" in line and "database 0" in line]), 1)

    def test_one_that_loses_votes_is_refused(self):
        self.right.worries = SetupError("it loses votes")
        for _ in range(2):
            with self.assertRaisesRegex(SetupError, "loses votes"):
                self.manager()
        self.assertFalse(os.path.exists(self.log))

    def test_one_that_was_down_at_the_start_is_looked_at_later(self):
        self.manager().close()
        self.right.is_up, self.right.worries = False, SetupError("it loses votes")
        with self.manager(patience=0.5) as xa:
            self.right.is_up = True
            with self.assertRaisesRegex(SetupError, "loses votes"):
                self.move(xa)
            self.right.worries = []
            self.move(xa)
        self.assertEqual(self.written(), (["take"], ["give"]))


class Stopped(Case):
    """A coordinator that is stopped (SIGSTOP), or whose disk hangs."""

    def test_before_a_decision(self):
        with self.manager(patience=0.5) as xa:
            self.left.before["prepare"] = lambda: os.kill(xa._session.coordinator.pid, signal.SIGSTOP)
            begun = time.monotonic()
            with self.assertRaises(OutcomeUnknown) as raised:
                self.move(xa)
            self.assertLess(time.monotonic() - begun, 10)
            self.left.before.clear()
            self.move(xa)
            self.assertIs(xa.outcome(str(raised.exception).split(":")[0]), Outcome.ROLLED_BACK)
        self.assertEqual(self.written(), (["take"], ["give"]))
        self.assertEqual((self.left.prepared, self.right.prepared), ({}, {}))

    def test_at_the_end(self):
        xa = self.manager(patience=0.5)
        os.kill(xa._session.coordinator.pid, signal.SIGSTOP)
        begun = time.monotonic()
        xa.close()
        self.assertLess(time.monotonic() - begun, 10)


class Ends(Case):
    def test_close_in_the_block_of_a_transaction(self):
        xa = self.manager()
        with xa.transaction() as t:
            t[0].execute("take")
            with self.assertRaisesRegex(XaError, "block"):
                xa.close()
        xa.close()
        self.assertEqual(self.left.written, ["take"])

    def test_a_transaction_that_another_thread_leaves_open_keeps_nothing_prepared(self):
        xa = self.manager(patience=0.3)
        is_there, may_go_on, post = threading.Event(), threading.Event(), xa._session.coordinator.post

        def prepared(move, *words, **more):
            if move.startswith("tell "):
                is_there.set()
                may_go_on.wait(10)
                raise CoordinatorGone("it was closed meanwhile")
            return post(move, *words, **more)

        def keep():
            with contextlib.suppress(XaError):
                with xa.transaction() as t:
                    t[0].execute("take")
                    t[1].execute("give")
                    # It stands between its votes and its decision.
                    xa._session.coordinator.post = prepared

        thread = threading.Thread(target=keep)
        thread.start()
        is_there.wait(10)
        self.assertEqual((len(self.left.prepared), len(self.right.prepared)), (1, 1))
        with self.assertRaises(Overdue):
            xa.close()
        self.assertEqual((self.left.prepared, self.right.prepared), ({}, {}))
        may_go_on.set()
        thread.join()
        self.assertEqual(self.written(), ([], []))

    def test_a_signal_closes_it_and_then_does_what_it_did_before(self):
        seen, closed = [], threading.Event()

        def before(*_):
            seen.append(xa._is_closed)
            closed.set()

        self.addCleanup(signal.signal, signal.SIGTERM, signal.signal(signal.SIGTERM, before))
        xa = self.manager(patience=5.0)
        xa.close_at(signal.SIGTERM)
        with xa.transaction() as t:
            t[0].execute("take")
            os.kill(os.getpid(), signal.SIGTERM)
            time.sleep(0.2)
            # What is open may end.
            self.assertEqual(seen, [])
            t[1].execute("give")
        until = time.monotonic() + 10
        while not closed.is_set() and time.monotonic() < until:
            time.sleep(0.01)
        self.assertEqual(seen, [True])
        self.assertEqual(self.written(), (["take"], ["give"]))
        with self.assertRaises(CoordinatorGone):
            self.move(xa)

    def test_a_transaction_that_another_thread_leaves_open_does_not_keep_the_coordinator(self):
        xa = self.manager(patience=0.3)
        is_open, may_end = threading.Event(), threading.Event()

        def keep():
            try:
                with xa.transaction() as t:
                    t[0].execute("take")
                    is_open.set()
                    may_end.wait(10)
            except XaError:
                pass

        thread = threading.Thread(target=keep)
        thread.start()
        is_open.wait(10)
        coordinator = xa._session.coordinator
        with self.assertRaises(Overdue):
            xa.close()
        self.assertIsNotNone(coordinator._process.poll())
        may_end.set()
        thread.join()
        self.assertEqual(self.left.written, [])


if __name__ == "__main__":
    unittest.main()
