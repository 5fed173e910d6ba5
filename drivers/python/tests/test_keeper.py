"""What is ended beside the transactions, and what doesn't wait for it."""

import contextlib
import logging
import os
import threading
import time
import unittest
from concurrent.futures import ThreadPoolExecutor
from unittest import mock

from garterfossil import CoordinatorGone, Outcome, OutcomeUnknown, RolledBack, SetupError, Xid
from garterfossil import recovery
from garterfossil.codes import Code
from garterfossil.errors import ConnectionLost, Unanswered
from garterfossil.identities import SUFFIX

from .case import Case


def wait_for(is_so, seconds=10.0):
    """Waits until something is so."""
    until = time.monotonic() + seconds
    while not is_so():
        if time.monotonic() >= until:
            raise AssertionError("it never came to that")
        time.sleep(0.01)


class Beside(Case):
    def test_a_long_transaction_beside_a_lost_connection_does_not_hold_up_the_others(self):
        with self.manager(threads=3, patience=20.0) as xa, xa.transaction() as long:
            long[0].execute("take")
            self.right.next["work"] = "lost"
            with self.assertRaises(ConnectionLost):
                with xa.transaction(independent=True) as t:
                    t[1].execute("give")
            begun = time.monotonic()
            for _ in range(20):
                with xa.transaction(independent=True) as t:
                    t[0].execute("take")
                    t[1].execute("give")
            self.assertLess(time.monotonic() - begun, 10)
        self.assertEqual(len(self.right.written), 20)

    def test_a_silent_database_does_not_hold_up_those_that_do_not_use_it(self):
        with self.manager(threads=3, patience=20.0) as xa:
            xa._session._rms[1].can_be_reached = lambda: time.sleep(3)
            xa._session._rms[1].is_recovery_due = True
            begun = time.monotonic()
            for _ in range(20):
                with xa.transaction() as t:
                    t[0].execute("take")
            self.assertLess(time.monotonic() - begun, 8)
            xa._session._rms[1].is_recovery_due = False
        self.assertEqual(len(self.left.written), 20)

    def test_many_threads_while_a_database_is_down(self):
        with self.manager(threads=4, patience=5.0) as xa:
            self.right.crash()

            def work(_):
                with xa.transaction() as t:
                    t[0].execute("take")
                    t[1].execute("give")

            with ThreadPoolExecutor(12) as pool:
                raised = [done.exception() for done in [pool.submit(work, number) for number in range(100)]]
            self.assertEqual({type(error) for error in raised}, {ConnectionLost})

    def test_a_branch_that_is_left_prepared_is_ended_while_the_program_lives(self):
        with self.manager(patience=0.5) as xa:
            self.right.next["commit_prepared"] = Unanswered("busy with another connection")
            self.right.before["commit_prepared"] = lambda: self.right.next.setdefault("commit_prepared", Unanswered("busy"))
            t = self.move(xa)
            self.assertIs(t.outcome, Outcome.COMMITTED)
            self.assertEqual((len(self.right.prepared), xa.counts()["owed"]), (1, 1))
            self.right.before.clear()
            # Nobody begins a transaction.
            wait_for(lambda: not self.right.prepared and xa.counts()["owed"] == 0)
        self.assertEqual(self.written(), (["take"], ["give"]))
        self.assertEqual(self.in_the_log()["rows"], {})

    def test_a_branch_that_cannot_be_ended_now_does_not_hold_up_the_others(self):
        self.manager().close()
        stuck, other = (Xid(7, bytes(15) + bytes([number]), bytes(8)) for number in (1, 2))
        self.left.prepared.update({stuck: ["one"], other: ["two"]})

        def ends(xid):
            if xid == stuck:
                raise Unanswered("busy with another connection")
            self.left.prepared.pop(xid)
            return Code.OK

        real = self.left.connect

        def connect(place):
            connection = real(place)
            connection._roll_back_prepared = ends
            return connection

        self.left.connect = connect
        with self.manager(patience=2.0) as xa:
            wait_for(lambda: list(self.left.prepared) == [stuck])
            self.move(xa)
        self.assertEqual(self.written(), (["take"], ["give"]))

    def test_close_ends_what_the_last_transaction_left(self):
        with self.manager(patience=0.3) as xa:
            self.right.before["commit_prepared"] = lambda: self.right.next.setdefault("commit_prepared", Unanswered("busy"))
            self.right.next["commit_prepared"] = Unanswered("busy")
            self.move(xa)
            self.right.before.clear()
        self.assertEqual((self.left.prepared, self.right.prepared), ({}, {}))

    def test_close_does_not_wait_for_a_database_that_is_silent(self):
        xa = self.manager(patience=20.0)
        xa._session._rms[1].can_be_reached = lambda: time.sleep(5)
        xa._session._rms[1].is_recovery_due = True
        self.move(xa)
        begun = time.monotonic()
        xa.close()
        self.assertLess(time.monotonic() - begun, 3)

    def test_an_idle_session_leaves_no_row_of_what_is_over_in_the_log(self):
        with self.manager(threads=3) as xa:
            asked = len(self.requests("due"))
            self.move(xa)
            self.assertNotEqual(self.in_the_log()["rows"], {})
            wait_for(lambda: self.in_the_log()["rows"] == {})
            # Once, and never again as long as nothing commits.
            time.sleep(1.5)
            self.assertEqual(len(self.requests("due")), asked + 1)
            self.assertFalse([thread for thread in threading.enumerate() if thread.name == "garterfossil idle"])
            self.move(xa)
            wait_for(lambda: len(self.requests("due")) == asked + 2 and self.in_the_log()["rows"] == {})
        self.assertEqual(self.written(), (2 * ["take"], 2 * ["give"]))

    def test_a_session_that_is_busy_asks_nothing_between_and_one_that_ends_waits_for_nothing(self):
        with mock.patch("garterfossil.keeper.IDLE", 40.0), self.manager() as xa:
            asked = len(self.requests("due"))
            for _ in range(20):
                self.move(xa)
            self.assertEqual(len([thread for thread in threading.enumerate() if thread.name == "garterfossil idle"]), 1)
            self.assertEqual(len(self.requests("due")), asked)
            begun = time.monotonic()
        self.assertLess(time.monotonic() - begun, 20)
        wait_for(lambda: not any(thread.name == "garterfossil idle" for thread in threading.enumerate()))

    def test_an_idle_session_whose_coordinator_is_gone(self):
        with self.manager() as xa:
            self.move(xa)
            xa._session.coordinator.kill()
            time.sleep(1.5)
            self.move(xa)
        self.assertEqual(self.written(), (2 * ["take"], 2 * ["give"]))

    def test_threads_end_once_nothing_is_due(self):
        with self.manager() as xa:
            self.right.next["work"] = "lost"
            with self.assertRaises(ConnectionLost):
                self.move(xa)
            self.move(xa)
            wait_for(lambda: not any(thread.name.startswith("garterfossil database") for thread in threading.enumerate()))


class Stops(Case):
    """A database that lists what is over, by all that it answered, isn't as it was: nobody goes on over it by himself."""

    def test_a_branch_that_was_committed_and_is_listed_again(self):
        with self.manager() as xa:
            with xa.transaction() as t:
                t[0].execute("take")
                t[1].execute("give")
                xid = t[1].xid
            # As after a copy of the database of a moment ago, or a standby that was promoted.
            self.right.written.clear()
            self.right.prepared[xid] = ["give"]
            with self.assertLogs("garterfossil", logging.ERROR) as logged:
                xa._session._rms[1].is_recovery_due = True
                with self.assertRaises(SetupError):
                    wait_for(lambda: self.moves_in_a_session(xa))
            self.assertIn("isn't as it was", "".join(logged.output))
        # Another run of the program doesn't, either.
        for _ in range(2):
            with self.assertRaisesRegex(SetupError, "shut"):
                self.manager()
        self.assertEqual(list(self.right.prepared), [xid])
        # Somebody has looked, and put the database right.
        self.right.prepared.clear()
        with open(self.log + SUFFIX) as it:
            lines = [line for line in it if '"shut"' not in line]
        with open(self.log + SUFFIX, "w") as it:
            it.writelines(lines)
        with self.manager() as xa:
            self.move(xa)

    def test_a_branch_that_was_committed_and_is_listed_again_by_the_next_run(self):
        """As by a standby that was promoted meanwhile, and lacked the last moment: the log has no row of it any more."""
        with self.manager() as xa:
            with xa.transaction() as t:
                t[0].execute("take")
                t[1].execute("give")
                xid = t[1].xid
        self.right.written.clear()
        self.right.prepared[xid] = ["give"]
        for _ in range(3):
            with self.assertRaisesRegex(SetupError, "Its transaction was committed, so by hand: make the call xa_commit"):
                self.manager()
        self.assertEqual(list(self.right.prepared), [xid])

    def test_a_session_ends_also_where_it_cant_be_noted_why(self):
        with self.manager() as xa:
            with xa.transaction() as t:
                xid = t[1].xid
            session = xa._session
            self.right.prepared[xid] = ["give"]
            full = mock.patch("garterfossil.identities.os.replace", side_effect=OSError(28, "No space left on device"))
            with full, self.assertLogs("garterfossil", logging.ERROR):
                session._rms[1].is_recovery_due = True
                session.see_to_recoveries()
                wait_for(lambda: session.coordinator.is_gone)
            self.right.prepared.clear()

    @unittest.skipUnless(os.geteuid() == 0, "root alone gives a file away")
    def test_what_root_has_recovered_the_user_of_the_log_goes_on_with(self):
        self.manager().close()
        os.chown(self.log, 65534, 65534)
        os.remove(f"{self.log}-committed")
        self.manager().close()
        self.assertEqual(os.stat(f"{self.log}-committed").st_uid, 65534)

    def test_what_another_log_at_the_same_place_has_committed(self):
        """Its transactions have the same numbers."""
        xa = self.manager()
        t = self.move(xa)
        xa.close()
        os.remove(self.log)
        with self.manager() as xa:
            # It is prepared, and the program is killed before the decision.
            self.before_the_votes_are_told(xa, xa._session.coordinator.kill)
            with contextlib.suppress(RolledBack, OutcomeUnknown), xa.transaction() as other:
                other[0].execute("take")
                other[1].execute("give")
            self.assertEqual(other.gtrid, t.gtrid)
            self.move(xa)
        self.assertEqual((self.left.prepared, self.right.prepared), ({}, {}))

    def test_what_a_session_leaves_whose_coordinator_is_killed_is_the_next_ones(self):
        with self.manager() as xa:
            with xa.transaction() as t:
                t[0].execute("take")
                t[1].execute("give")
                xid = t[1].xid
            session = xa._session
            rm = session._rms[1]
            connection = rm.connect()
            real = connection.listed

            def listed():
                # The branch is listed, and then the coordinator is killed, and its transaction over.
                session.coordinator.kill()
                return [*real(), xid]

            connection.listed = listed
            with self.assertRaises(CoordinatorGone):
                recovery.look(session, rm, connection)
            self.right.written.clear()
            self.move(xa)
        self.assertEqual(self.right.written, ["give"])

    def moves_in_a_session(self, xa):
        """(The session may end in the middle of it.)"""
        with contextlib.suppress(CoordinatorGone, RolledBack, OutcomeUnknown):
            self.move(xa)

    def test_a_rollback_of_an_earlier_sessions_branch_that_was_forgotten_is_done_again(self):
        self.manager().close()
        xid = Xid(7, bytes(7) + b"\1" + bytes(7) + b"\1", bytes(8))
        self.left.prepared[xid] = ["one"]
        with self.manager() as xa:
            self.assertEqual(self.left.prepared, {})
            # As MariaDB does in a crash.
            self.left.prepared[xid] = ["one"]
            xa._session._rms[0].is_recovery_due = True
            self.move(xa)
            wait_for(lambda: not self.left.prepared or self.moves_in_a_session(xa))
        self.assertEqual(self.left.prepared, {})
        self.assertNotIn("one", self.left.written)
        self.manager().close()

    def test_a_rollback_that_is_answered_by_its_reason(self):
        self.manager().close()
        self.left.prepared[Xid(7, bytes(7) + b"\1" + bytes(7) + b"\1", bytes(8))] = []
        self.left.next["roll_back_prepared"] = Code.RBROLLBACK
        self.left.before["roll_back_prepared"] = self.left.prepared.clear
        with self.manager() as xa:
            self.move(xa)
        # It is told as it is: what it means is the coordinator's to know.
        self.assertEqual(self.requests("end"), ["end 0 100"])
        self.assertEqual(self.left.prepared, {})

    def test_a_rollback_that_was_forgotten_is_done_again(self):
        with self.manager() as xa:
            self.right.next["prepare"] = Code.RBINTEGRITY
            with self.assertRaises(RolledBack):
                with xa.transaction() as t:
                    t[0].execute("take")
                    t[1].execute("give")
                    xid = t[0].xid
            self.left.prepared[xid] = ["take"]
            xa._session._rms[0].is_recovery_due = True
            self.move(xa)
            wait_for(lambda: not self.left.prepared or self.move(xa) is None)
        self.assertIn("take", self.left.written)


if __name__ == "__main__":
    unittest.main()
