"""Transactions over databases in memory, with everything that may go wrong on the way."""

import contextlib
import unittest

from garterfossil import CoordinatorGone, HeuristicEnd, OutcomeUnknown, Overdue, RolledBack, SetupError, XaError
from garterfossil.adapters.base import Place
from garterfossil.codes import Code
from garterfossil.errors import ConnectionLost, Unanswered
from garterfossil.outcomes import Outcome

from .case import Case
from .fake_database import WrongStatement


class Transactions(Case):
    # ** what goes well

    def test_both_are_committed(self):
        with self.manager() as xa:
            t = self.move(xa)
        self.assertEqual(self.written(), (["take"], ["give"]))
        self.assertIs(t.outcome, Outcome.COMMITTED)
        self.assertEqual(self.requests("join", "tell"), ["join 1 0 1", "tell 1 0 0", "tell 1 0 0"])
        self.assertEqual(self.in_the_log()["rows"], {})

    def test_an_exception_rolls_both_back(self):
        with self.manager() as xa:
            with self.assertRaises(KeyError):
                with xa.transaction() as t:
                    t[0].execute("take")
                    t[1].execute("give")
                    raise KeyError
        self.assertEqual(self.written(), ([], []))
        self.assertIs(t.outcome, Outcome.ROLLED_BACK)
        self.assertEqual(self.requests("rollback"), ["rollback 1"])

    def test_one_database_alone_decides_by_itself(self):
        with self.manager() as xa:
            with xa.transaction() as t:
                t[1].execute("give")
        self.assertEqual(self.written(), ([], ["give"]))
        self.assertEqual(self.requests("join", "commit", "tell"), ["join 1 1", "commit 1", "tell 1 0"])
        self.assertEqual(set(self.left.calls), {"listed "})

    def test_a_branch_that_only_read_is_not_committed_again(self):
        self.left.next["prepare"] = Code.RDONLY
        with self.manager() as xa:
            t = self.move(xa)
        self.assertEqual(self.written(), ([], ["give"]))
        self.assertFalse([call for call in self.left.calls if call.startswith("commit")])
        self.assertIs(t.outcome, Outcome.COMMITTED)

    def test_a_transaction_that_does_nothing(self):
        with self.manager() as xa:
            with xa.transaction() as t:
                pass
        self.assertIs(t.outcome, Outcome.COMMITTED)
        self.assertEqual(self.requests("join", "commit", "tell"), ["commit 1"])

    # ** votes

    def test_a_no_rolls_the_other_back(self):
        self.right.next["prepare"] = Code.RBINTEGRITY
        with self.manager() as xa:
            with self.assertRaisesRegex(RolledBack, "database 1 voted RBINTEGRITY"):
                self.move(xa)
        self.assertEqual(self.written(), ([], []))
        self.assertEqual((self.left.prepared, self.right.prepared), ({}, {}))

    def test_a_failed_statement_is_a_no_also_where_it_is_caught(self):
        with self.manager() as xa:
            with self.assertRaises(RolledBack):
                with xa.transaction() as t:
                    t[0].execute("take")
                    with self.assertRaises(WrongStatement):
                        t[1].execute("wrong")
        self.assertEqual(self.written(), ([], []))
        self.assertFalse([call for call in self.left.calls if call.startswith("prepare")])

    # ** branches that somebody ends by hand

    def test_a_branch_that_was_ended_by_hand_before_its_commit(self):
        with self.manager() as xa:
            self.before_the_votes_are_told(xa, self.right.prepared.clear)
            with self.assertLogs("garterfossil", "ERROR"), self.assertRaisesRegex(HeuristicEnd, "by hand"):
                with xa.transaction() as t:
                    t[0].execute("take")
                    t[1].execute("give")
            self.assertIs(t.outcome, Outcome.COMMITTED)
            self.assertEqual((t.is_heuristic, xa.counts()["heuristic"]), (True, 1))
        # What the database said is told as it is, and what it means is the coordinator's: the log has a record, and the row is over.
        self.assertEqual(self.requests("tell")[1:], ["tell 1 0 -4", "tell 1 -4"])
        self.assertEqual([line.split(" ")[1] for line in self.in_the_log()["heuristics"]], ["8"])
        self.assertEqual(self.in_the_log()["rows"], {})

    def test_a_branch_that_was_ended_by_hand_before_its_rollback(self):
        self.right.next["prepare"] = Code.RBINTEGRITY
        with self.manager() as xa:
            self.before_the_votes_are_told(xa, self.left.prepared.clear)
            with self.assertLogs("garterfossil", "ERROR"), self.assertRaisesRegex(RolledBack, "voted RBINTEGRITY.*by hand"):
                with xa.transaction() as t:
                    t[0].execute("take")
                    t[1].execute("give")
            self.assertEqual((t.is_heuristic, xa.counts()["heuristic"]), (True, 1))
        self.assertEqual([line.split(" ")[1] for line in self.in_the_log()["heuristics"]], ["8"])

    def test_an_end_that_was_lost_may_have_been_made(self):
        with self.manager() as xa:
            self.right.next["commit_prepared"] = "lost"
            t = self.move(xa)
            self.assertEqual((t.is_heuristic, xa.counts()["heuristic"]), (False, 0))
        self.assertNotIn("heuristics", self.in_the_log())

    def test_a_branch_that_its_database_committed_by_itself_is_committed(self):
        with self.manager() as xa:
            self.right.next["commit_prepared"] = Code.HEURCOM
            t = self.move(xa)
            self.assertFalse(t.is_heuristic)

    def test_a_database_that_forgets_what_it_ended_by_itself(self):
        with self.manager() as xa:
            self.right.next["commit_prepared"] = Code.HEURMIX
            with self.assertRaisesRegex(HeuristicEnd, "HEURMIX, its database has ended it by itself"):
                with xa.transaction() as t:
                    t[0].execute("take")
                    t[1].execute("give")
                    connection = t._hands.parts[1].connection
                    do = connection.do
                    connection.do = lambda verb, xid: Code.OK if verb == "forget" else do(verb, xid)
        self.assertEqual(self.requests("tell")[1:3], ["tell 1 0 5", "tell 1 0"])

    def test_a_branch_that_is_rolled_back_against_its_vote(self):
        with self.manager() as xa:
            self.right.next["commit_prepared"] = Code.RBOTHER
            with self.assertRaisesRegex(HeuristicEnd, "HEURRB"):
                self.move(xa)
        self.assertEqual([line.split(" ")[1] for line in self.in_the_log()["heuristics"]], ["6"])

    # ** connections that are lost

    def test_a_connection_that_is_lost_at_work(self):
        with self.manager() as xa:
            self.right.next["work"] = "lost"
            with self.assertRaises(ConnectionLost):
                self.move(xa)
            self.move(xa)
        self.assertEqual(self.written(), (["take"], ["give"]))
        # The coordinator is told of each branch that it is over: at once, or by a recovery.
        self.assertEqual(self.requests("rollback", "tell")[:2], ["rollback 1", "tell 1 0 lost"])
        self.assertEqual(self.requests("end"), ["end 1 -4"])

    def test_a_vote_that_is_lost(self):
        with self.manager() as xa:
            self.right.next["prepare"] = "lost"
            with self.assertRaises(RolledBack):
                self.move(xa)
            self.assertEqual((self.left.prepared, self.right.prepared), ({}, {}))
            self.move(xa)
        self.assertEqual(self.written(), (["take"], ["give"]))

    def test_an_acknowledgement_that_is_lost_is_asked_for_again(self):
        with self.manager() as xa:
            self.right.next["commit_prepared"] = "lost"
            t = self.move(xa)
            self.assertIs(t.outcome, Outcome.COMMITTED)
            # It is asked for by a recovery, and by nobody's own thread.
            self.assertEqual(self.requests("tell")[1:], ["tell 1 0 lost"])
        self.assertEqual(self.written(), (["take"], ["give"]))
        self.assertEqual(self.requests("end"), ["end 1 -4"])
        self.assertEqual(self.in_the_log()["rows"], {})

    def test_the_answer_of_a_single_database_is_lost(self):
        with self.manager() as xa:
            self.left.next["commit_in_one_phase"] = "lost"
            with self.assertRaises(OutcomeUnknown):
                with xa.transaction() as t:
                    t[0].execute("take")
            self.assertIs(t.outcome, Outcome.UNKNOWN)
            self.move(xa)

    def test_a_commit_in_one_phase_that_was_never_made_is_rolled_back(self):
        with self.manager(dies_at="commit") as xa:
            with self.assertRaises(RolledBack):
                with xa.transaction() as t:
                    t[0].execute("take")
            self.assertIs(t.outcome, Outcome.ROLLED_BACK)
            self.assertTrue(t.is_worth_trying_again)
        self.assertEqual(self.left.written, [])

    def test_a_connection_that_is_lost_before_a_commit_in_one_phase(self):
        with self.manager() as xa:
            self.left.next["end"] = "lost"
            with self.assertRaises(RolledBack):
                with xa.transaction() as t:
                    t[0].execute("take")
            self.assertTrue(t.is_worth_trying_again)
        self.assertEqual(self.left.written, [])

    def test_what_a_single_database_said_is_told_although_the_coordinator_ends_in_it(self):
        for code, outcome in ((Code.OK, Outcome.COMMITTED), (Code.RBINTEGRITY, Outcome.ROLLED_BACK), ("lost", Outcome.UNKNOWN)):
            with self.manager() as xa:
                self.left.next["commit_in_one_phase"] = code
                self.left.before["commit_in_one_phase"] = lambda: xa._session.coordinator.kill()
                with contextlib.suppress(RolledBack, OutcomeUnknown):
                    with xa.transaction() as t:
                        t[0].execute("take")
                self.left.before.clear()
                self.assertIs(t.outcome, outcome)
                self.assertIs(xa.outcome(t.gtrid), outcome)

    def test_what_was_told_can_be_asked_for_again(self):
        with self.manager() as xa:
            t = self.move(xa)
            self.assertIs(xa.outcome(t.gtrid), Outcome.COMMITTED)
            with self.assertRaises(KeyError):
                with xa.transaction() as t:
                    raise KeyError
            self.assertIs(xa.outcome(t.gtrid), Outcome.ROLLED_BACK)
            with self.assertRaises(ValueError):
                xa.outcome("nonsense")
            self.left.next["commit_in_one_phase"] = "lost"
            with self.assertRaises(OutcomeUnknown) as raised:
                with xa.transaction() as t:
                    t[0].execute("take")
            self.assertEqual(raised.exception.gtrid, t.gtrid)
            self.assertIs(xa.outcome(t.gtrid), Outcome.UNKNOWN)

    def test_what_is_put_off_or_has_no_answer_is_asked_again(self):
        with self.manager() as xa:
            self.left.next["commit_prepared"] = Code.RETRY
            self.right.next["commit_prepared"] = Unanswered("busy")
            self.move(xa)
        self.assertEqual(self.written(), (["take"], ["give"]))

    def test_a_branch_that_does_not_begin_dooms_the_transaction(self):
        with self.manager() as xa:
            self.right.next["start"] = Unanswered("no")
            with self.assertRaises(RolledBack):
                with xa.transaction() as t:
                    t[0].execute("take")
                    with self.assertRaises(ConnectionLost):
                        t[1].execute("give")
        self.assertEqual(self.written(), ([], []))

    def test_an_identifier_that_is_in_use_shuts_the_log(self):
        """Nobody else gives it out, unless a copy of the log is at work, as on a machine that was cloned."""
        with self.manager() as xa:
            self.move(xa)
            self.right.next["start"] = Code.DUPID
            with self.assertRaises(XaError):
                self.move(xa)
            with self.assertRaisesRegex(SetupError, "of a copy of this log that is at work"):
                self.move(xa)
        with self.assertRaisesRegex(SetupError, "of a copy of this log that is at work.*shut"):
            self.manager()

    # ** recovery

    def test_a_database_that_goes_down_behind_the_decision(self):
        with self.manager(patience=1.0) as xa:
            with xa.transaction() as t:
                t[0].execute("take")
                t[1].execute("give")
                t[1]._line.connection._prepare = lambda xid: self.prepare_and_go_down(xid)
            self.assertIs(t.outcome, Outcome.COMMITTED)
            self.assertEqual(self.written(), (["take"], []))
            self.right.is_up = True
            self.move(xa)
        self.assertEqual(self.written(), (["take", "take"], ["give", "give"]))
        self.assertEqual(self.in_the_log()["rows"], {})

    def prepare_and_go_down(self, xid):
        self.right.prepared[xid] = ["give"]
        self.right.crash()
        return Code.OK

    def test_the_coordinator_ends_before_its_decision(self):
        with self.manager(dies_at="votes") as xa:
            with self.assertRaises(OutcomeUnknown) as raised:
                self.move(xa)
            self.assertIsInstance(raised.exception.__cause__, CoordinatorGone)
            self.assertEqual((len(self.left.prepared), len(self.right.prepared)), (1, 1))
            self.move(xa)
        self.assertEqual(self.written(), (["take"], ["give"]))
        self.assertEqual((self.left.prepared, self.right.prepared), ({}, {}))

    def test_the_coordinator_ends_behind_its_decision(self):
        with self.manager(dies_at="decided") as xa:
            with self.assertRaises(OutcomeUnknown):
                self.move(xa)
            self.assertEqual(self.written(), ([], []))
            self.move(xa)
        self.assertEqual(self.written(), (["take", "take"], ["give", "give"]))
        self.assertEqual(self.in_the_log()["rows"], {})

    def test_a_log_that_fails_in_a_decision(self):
        with self.manager(dies_at="stopped") as xa:
            with self.assertRaisesRegex(OutcomeUnknown, "its log failed") as raised:
                self.move(xa)
            self.assertEqual(self.written(), ([], []))
            self.move(xa)
            self.assertIs(xa.outcome(raised.exception.gtrid), Outcome.ROLLED_BACK)
        self.assertEqual(self.written(), (["take"], ["give"]))
        self.assertEqual((self.left.prepared, self.right.prepared), ({}, {}))

    def test_the_coordinator_ends_as_a_transaction_is_rolled_back(self):
        with self.manager(dies_at="rollback") as xa:
            with self.assertRaises(KeyError):
                with xa.transaction() as t:
                    t[0].execute("take")
                    t[1].execute("give")
                    raise KeyError
            self.assertIs(t.outcome, Outcome.ROLLED_BACK)
            self.move(xa)
        self.assertEqual(self.written(), (["take"], ["give"]))

    def test_the_coordinator_ends_while_nothing_is_open(self):
        with self.manager(dies_at="start") as xa:
            self.move(xa)
        self.assertEqual(self.written(), (["take"], ["give"]))

    def test_a_database_that_is_down_at_the_start(self):
        self.manager().close()
        self.right.is_up = False
        with self.manager(patience=0.2) as xa:
            with xa.transaction() as t:
                t[0].execute("take")
            self.right.is_up = True
            self.move(xa)
        self.assertEqual(self.written(), (["take", "take"], ["give"]))

    def test_a_database_forgets_a_rollback(self):
        with self.manager() as xa:
            self.right.next["prepare"] = Code.RBINTEGRITY
            with self.assertRaises(RolledBack):
                with xa.transaction() as t:
                    t[0].execute("take")
                    t[1].execute("give")
                    xid = t[0].xid
            self.assertIn(f"roll_back_prepared {xid}", self.left.calls)
            self.left.prepared[xid] = ["take"]
            self.left.next["work"] = "lost"
            with self.assertRaises(ConnectionLost):
                self.move(xa)
            self.move(xa)
        self.assertEqual(self.written(), (["take"], ["give"]))
        self.assertEqual(self.left.prepared, {})
        self.assertEqual(self.in_the_log()["incarnation"], 2)

    def test_the_connections_of_an_earlier_driver_are_ended_first(self):
        stray = self.right.connect(Place(number=1))
        with self.manager() as xa:
            self.assertTrue(stray.is_lost)
            with xa.transaction() as t:
                t[1].execute("give")
                self.assertFalse(t[1]._line.connection.is_lost)

    # ** threads, and the end

    def test_no_thread_comes_free(self):
        with self.manager(threads=1, patience=0.2) as xa:
            with xa.transaction():
                with self.assertRaises(Overdue):
                    with xa.transaction(independent=True):
                        pass

    def test_a_transaction_is_over_once(self):
        with self.manager() as xa:
            with xa.transaction() as t:
                t[0].execute("take")
                t.rollback()
                with self.assertRaises(XaError):
                    t[1].execute("give")
        self.assertEqual(self.written(), ([], []))

    def test_a_manager_that_is_closed(self):
        xa = self.manager()
        xa.close()
        with self.assertRaises(CoordinatorGone):
            self.move(xa)


if __name__ == "__main__":
    unittest.main()
