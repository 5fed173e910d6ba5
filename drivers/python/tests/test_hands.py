"""The calls that the coordinator tells: how they are made, and what is told of a transaction
whatever ends in the middle of it."""

import contextlib
import threading
import time
import unittest
from concurrent.futures import ThreadPoolExecutor
from unittest import mock

from garterfossil import CoordinatorGone, HeuristicEnd, Outcome, OutcomeUnknown, RolledBack, SetupError, TransactionManager, XaError, Xid
from garterfossil import recovery
from garterfossil.codes import Code
from garterfossil.errors import ConnectionLost
from garterfossil.hands import Told
from garterfossil.identities import SUFFIX

from . import fake_program
from .case import Case
from .test_keeper import wait_for


class Replies(unittest.TestCase):
    def test_what_is_told(self):
        for reply, told in (
            ("committed next 0", Told(Outcome.COMMITTED, owed=[])),
            ("committed owed 1 2 mixed 0 6 3 8 next 0", Told(Outcome.COMMITTED, None, None, [1, 2], {0: Code.HEURRB, 3: Code.HEURHAZ})),
            ("rolled-back 102 1 owed 0 next 0", Told(Outcome.ROLLED_BACK, Code.RBDEADLOCK, 1, [0])),
            ("rolled-back next 0", Told(Outcome.ROLLED_BACK, owed=[])),
            ("unknown owed 0 next 0", Told(Outcome.UNKNOWN, owed=[0])),
        ):
            self.assertEqual(Told.parse(reply), told)


class Calls(Case):
    def test_the_calls_of_one_reply_are_made_side_by_side(self):
        both = threading.Barrier(2)
        for database in (self.left, self.right):
            for call in ("prepare", "commit_prepared"):
                database.before[call] = lambda: both.wait(10)
        with self.manager() as xa:
            self.move(xa)
        self.assertEqual(self.written(), (["take"], ["give"]))

    def test_a_reply_that_there_is_none_of_ends_the_session_and_nothing_is_lost(self):
        calls, outcomes = ("prepare 0 9", "prepare x", "prepare", "commit", "perhaps 0 1", ""), ("committed owed 9", "rolled-back 99 0")
        for wrong in (*calls, *(f"{outcome} next 0" for outcome in outcomes)):
            for move in ("join", "tell"):
                with self.subTest(wrong, move=move), self.manager() as xa:
                    self.move(xa)
                    self.says_in_place_of_a_reply(xa, move, wrong, is_asked=move == "tell")
                    # Before the votes are told nothing is decided; after that the next session knows it.
                    with self.assertRaises(RolledBack if move == "join" else OutcomeUnknown):
                        with xa.transaction() as t:
                            t[0].execute("take")
                            t[1].execute("give")
                    self.assertIs(xa.outcome(t.gtrid), Outcome.ROLLED_BACK if move == "join" else Outcome.COMMITTED)
                    self.move(xa)
                written = self.written()
                self.assertEqual([len(one) for one in written], [2 if move == "join" else 3] * 2)
                self.assertEqual((self.left.prepared, self.right.prepared), ({}, {}))
                self.left.written.clear()
                self.right.written.clear()

    def test_a_next_transaction_that_has_no_name_ends_the_session(self):
        with self.manager(threads=1) as xa:
            for wrong in ("committed", "committed next x", "committed next 1 "):
                # The thread has two numbers: the third transaction is the next one of the first.
                self.move(xa)
                self.move(xa)
                session = xa._session
                self.says_in_place_of_a_reply(xa, "tell", wrong, is_asked=False)
                self.move(xa)
                self.assertTrue(session.coordinator.is_gone)
                self.assertRegex(session.coordinator._fault, f"it replied {wrong!r} to 'tell [12] 0 0'")
        self.assertEqual([len(one) for one in self.written()], [9, 9])

    def test_a_recovery_that_is_told_no_call_ends_the_session(self):
        for wrong in ("", "xa_commit", "xa_commit 7:0", "strange", "perhaps"):
            with self.subTest(wrong), self.manager() as xa:
                session = xa._session
                self.says_in_place_of_a_reply(xa, "recover", wrong, is_asked=True)
                with self.assertRaisesRegex(CoordinatorGone, f"it replied {wrong!r} to"):
                    recovery.recover(session, session._rms[0])
                self.assertTrue(session.coordinator.is_gone)
                self.move(xa)

    def test_a_fate_that_is_none_ends_the_session_and_is_asked_again(self):
        with self.manager() as xa:
            session = xa._session
            gtrid = f"{session.coordinator.incarnation:016x}{99:016x}"
            self.says_in_place_of_a_reply(xa, "fate", "perhaps", is_asked=True)
            session.outcomes.ask(gtrid)
            with self.assertRaisesRegex(CoordinatorGone, "it replied 'perhaps' to 'fate"):
                session.outcomes.find(session.coordinator)
            self.assertIs(xa.outcome(gtrid), Outcome.ROLLED_BACK)

    def says_in_place_of_a_reply(self, xa, move, wrong, is_asked):
        """The next reply to such a move is this one, once."""
        coordinator, left = xa._session.coordinator, [wrong]
        wait = coordinator.wait

        def waits(reply):
            words = wait(reply)
            is_it = reply.move.startswith(move) and reply.is_asked is is_asked
            return left.pop() if left and is_it else words

        coordinator.wait = waits

    def test_the_coordinator_is_waited_for_once_in_a_transfer(self):
        asked = []
        with self.manager() as xa:
            self.move(xa)
            self.move(xa)
            post = xa._session.coordinator.post

            def posts(move, thread=None, is_asked=False, is_later=False):
                asked.append((move.split(" ")[0], is_asked))
                return post(move, thread, is_asked, is_later)

            xa._session.coordinator.post = posts
            self.move(xa)
        self.assertEqual(asked[:3], [("join", False), ("tell", True), ("tell", False)])

    def test_a_transfer_takes_two_lines_since_its_thread_has_two_numbers(self):
        with self.manager(threads=1) as xa:
            for _ in range(5):
                self.move(xa)
        lines = [line for line in self.in_the_log()["lines"] if line.split(" ")[0] in ("start", "join", "tell")]
        first = ["start 1", "join 1 0 1", "tell 1 0 0", "tell 1 0 0;start 2", "join 2 0 1", "tell 2 0 0"]
        again = ["tell 2 0 0;join 1 0 1", "tell 1 0 0", "tell 1 0 0;join 2 0 1", "tell 2 0 0"]
        self.assertEqual(lines, [*first, *again, *again[:2], "tell 1 0 0"])

    def test_what_is_told_with_the_next_line_is_told_by_an_idle_session_and_by_its_end(self):
        with self.manager() as xa:
            self.move(xa)
            self.assertEqual(self.requests("tell"), ["tell 1 0 0"])
            wait_for(lambda: len(self.requests("tell")) == 2)
            wait_for(lambda: self.in_the_log()["rows"] == {})
            with xa.transaction() as t:
                t[0].execute("take")
        self.assertEqual(self.requests("tell")[2:], ["tell 3 0"])

    def test_threads_of_which_the_coordinator_has_no_second_number(self):
        with mock.patch("garterfossil.session.MOST_THREADS", 3), self.manager(threads=2) as xa:
            for _ in range(3):
                self.move(xa)
        self.assertEqual(self.requests("start", "join"), ["start 1", *(3 * ["join 1 0 1"])])
        self.assertEqual(self.requests("tell"), 6 * ["tell 1 0 0"])

    def test_a_database_that_is_away_behind_the_decision_is_waited_for_by_nobody(self):
        with self.manager(patience=30.0) as xa:
            begun = time.monotonic()
            with xa.transaction() as t:
                t[0].execute("take")
                t[1].execute("give")
                self.left.before["commit_prepared"] = self.right.crash
            self.assertLess(time.monotonic() - begun, 5)
            self.assertIs(t.outcome, Outcome.COMMITTED)
            self.assertEqual(xa.counts()["owed"], 1 if self.right.prepared else 0)
            self.right.is_up = True
            # Nobody begins a transaction.
            wait_for(lambda: xa.counts()["owed"] == 0 and not self.right.prepared)
        self.assertEqual(self.written(), (["take"], ["give"]))

    def test_no_transaction_begins_over_a_new_log_before_each_database_was_looked_at(self):
        looks = []

        def looked():
            looks.append(self.right.calls)
            # Before the start, and before the page.
            if len(looks) == 2:
                raise ConnectionLost("it is away for a moment")

        self.right.before["listed"] = looked
        with self.manager(patience=10.0) as xa:
            self.move(xa)
        moves = self.requests("recover", "start")
        self.assertLess(moves.index("recover 1"), moves.index("start 1"))
        self.assertEqual(self.written(), (["take"], ["give"]))

    def test_a_coordinator_that_ends_before_it_hears_of_the_votes_has_decided_nothing(self):
        for moment in ("work", "prepare"):
            with self.manager() as xa:
                self.right.before[moment] = lambda: xa._session.coordinator.kill()
                with self.assertRaises((RolledBack, CoordinatorGone)):
                    with xa.transaction() as t:
                        t[0].execute("take")
                        t[1].execute("give")
                self.right.before.clear()
                self.assertIs(t.outcome, Outcome.ROLLED_BACK)
                self.move(xa)
        self.assertEqual(self.written(), (["take", "take"], ["give", "give"]))

    def test_a_branch_that_was_ended_by_hand_is_told_although_the_coordinator_ends(self):
        with self.manager() as xa:
            self.before_the_votes_are_told(xa, self.right.prepared.clear)
            self.right.before["commit_prepared"] = lambda: xa._session.coordinator.kill()
            with self.assertRaisesRegex(HeuristicEnd, "by hand"):
                with xa.transaction() as t:
                    t[0].execute("take")
                    t[1].execute("give")
            self.right.before.clear()
            self.assertIs(t.outcome, Outcome.COMMITTED)

    def test_an_outcome_that_is_asked_for_after_the_next_session_has_begun(self):
        with self.manager(dies_at="votes") as xa:
            ask = xa._outcomes.ask

            def ask_late(gtrid):
                with ThreadPoolExecutor(1) as pool:
                    pool.submit(self.move, xa).result()
                ask(gtrid)

            xa._outcomes.ask = ask_late
            with self.assertRaises(OutcomeUnknown) as raised:
                self.move(xa)
            self.assertIs(xa.outcome(raised.exception.gtrid), Outcome.ROLLED_BACK)

    def test_a_branch_of_another_log_shuts_the_log_for_good(self):
        with self.manager() as xa:
            self.move(xa)
            self.left.prepared[Xid(7, (9).to_bytes(8, "big") + bytes(8), bytes(8))] = []
            xa._session._rms[0].is_recovery_due = True
            with self.assertRaises(XaError):
                wait_for(lambda: self.moves(xa))
        for _ in range(2):
            with self.assertRaisesRegex(SetupError, "no session over this log began.*shut"):
                self.manager()
        with open(self.log + SUFFIX) as it:
            self.assertIn('"shut"', it.read())

    def moves(self, xa):
        with contextlib.suppress(CoordinatorGone, RolledBack, OutcomeUnknown):
            self.move(xa)


class Owing(Case):
    """What a log has decided and a database hasn't acknowledged is counted from the start."""

    def manager(self, **options):
        program = fake_program.made_in(self.folder)
        return TransactionManager([self.left, self.right], self.log, threads=2, patience=1.0, program=program, **options)

    def test_what_earlier_sessions_owe(self):
        xa = self.manager()
        self.right.next["commit_prepared"] = ConnectionLost("killed")
        self.right.before["commit_prepared"] = lambda: xa._session.coordinator.kill()
        self.move(xa)
        self.right.before.clear()
        self.right.is_up = False
        with self.manager() as xa:
            self.assertEqual([one["owed"] for one in xa._session.standing()], [0, 1])
            self.right.is_up = True
            wait_for(lambda: xa.counts()["owed"] == 0)
        self.assertEqual(self.written(), (["take"], ["give"]))


class Moments(Case):
    """Whatever ends at whichever moment of a transfer: what was told is so, and both databases
    agree."""

    def transfer(self, xa, fails):
        t = None
        with contextlib.suppress(XaError, KeyError):
            with xa.transaction() as t:
                t[0].execute("take")
                t[1].execute("give")
                if fails:
                    raise KeyError
        return t

    def see(self, xa, t, where):
        """Sees that all is right, once what is in doubt was ended."""
        self.move(xa)
        wait_for(lambda: not self.left.prepared and not self.right.prepared)
        self.assertEqual(len(self.left.written), len(self.right.written), where)
        outcome = xa.outcome(t.gtrid) if t.outcome is Outcome.UNKNOWN else t.outcome
        self.assertEqual(len(self.left.written) - 1, int(outcome is Outcome.COMMITTED), where)
        self.left.written.clear()
        self.right.written.clear()

    def sweep(self, fails, end):
        """Has something end at each of the moments at which the coordinator is written to or read
        from, or a call is made."""
        moment, was_there = 0, True
        with self.manager(patience=5.0) as xa:
            while was_there:
                moment += 1
                self.move(xa)
                self.left.written.clear()
                self.right.written.clear()
                left = [moment]
                self.watch(xa, left, end)
                t = self.transfer(xa, fails)
                was_there, left[0] = left[0] <= 0, 0
                self.see(xa, t, f"moment {moment}")
        return moment

    def watch(self, xa, left, end):
        coordinator = xa._session.coordinator

        def at(*_):
            left[0] -= 1
            if left[0] == 0:
                end(xa)

        def before(step):
            def stepped(*words, **more):
                at()
                return step(*words, **more)

            return stepped

        for name in ("post", "wait"):
            # Those of an earlier moment do nothing any more.
            setattr(coordinator, name, before(getattr(type(coordinator), name).__get__(coordinator)))
        self.left.called = self.right.called = at

    def test_the_coordinator_is_killed(self):
        self.assertGreater(self.sweep(False, lambda xa: xa._session.coordinator.kill()), 12)

    def test_the_coordinator_is_killed_in_a_rollback(self):
        self.assertGreater(self.sweep(True, lambda xa: xa._session.coordinator.kill()), 9)

    def lose(self, database):
        for connection in database.connections:
            if not connection.is_lost:
                connection.hang_up()

    def test_the_connections_to_a_database_are_lost(self):
        for database in (self.left, self.right):
            self.assertGreater(self.sweep(False, lambda xa: self.lose(database)), 12)

    def test_all_is_lost_at_once(self):
        def end(xa):
            xa._session.coordinator.kill()
            self.lose(self.left)
            self.lose(self.right)

        self.sweep(False, end)
        self.sweep(True, end)


if __name__ == "__main__":
    unittest.main()
