"""The mirror: what is in it when, what it refuses, and the log that is made of it."""

import contextlib
import json
import os
import shutil
import sqlite3
import time
from concurrent.futures import ThreadPoolExecutor

from garterfossil import ConnectionLost, OutcomeUnknown, Outcome, RolledBack, SetupError, TransactionManager, Xid
from garterfossil.configuration import Configuration
from garterfossil.errors import CoordinatorGone
from garterfossil.failover import fail_over
from garterfossil.mirror import MARGIN

from . import fake_program
from .case import Case
from .fake_mirror import FakeMirror


class Mirrors(Case):
    def setUp(self):
        super().setUp()
        self.mirror = FakeMirror(self.folder)
        self.program = fake_program.made_in(self.folder)
        # What the machine has that is lost.
        self.machine = os.path.join(self.folder, "machine")
        os.mkdir(self.machine)
        self.log = os.path.join(self.machine, "log")

    def started(self):
        """How often the stand-in's log has been started."""
        with open(self.log) as it:
            return json.load(it)["incarnation"]

    def manager(self, log=None, **options):
        named = {"bank": self.left, "shop": self.right}
        return TransactionManager(named, log or self.log, threads=2, patience=1.0, program=self.program, mirror=self.mirror, **options)

    def fail_over(self, **options):
        given = {"program": self.program, "patience": 1.0, "mirror": self.mirror}
        return list(fail_over(Configuration([self.left, self.right], self.log, ["bank", "shop"], given), **options))

    def test_a_decision_is_in_it_before_a_database_hears_of_it_and_leaves_behind_the_log(self):
        seen = []
        self.left.before["commit_prepared"] = lambda: seen.append(self.mirror.decided())
        with self.manager() as xa:
            t = self.move(xa)
            self.assertEqual(seen, [[t.gtrid]])
            self.assertEqual(self.mirror.rows("name, incarnation", "garterfossil_manager"), [(xa.name, 1)])
        self.assertEqual(self.mirror.decided(), [])

    def test_a_session_tells_it_what_the_log_has_and_no_more(self):
        xa = self.manager()
        self.right.before["commit_prepared"] = lambda: xa._session.coordinator.kill()
        self.right.next["commit_prepared"] = "lost"
        gtrid = self.move(xa).gtrid
        self.right.before.clear()
        # What the log lost, and what it has, as nobody could tell the mirror.
        with sqlite3.connect(self.mirror.path) as it:
            other = "SELECT name, 'of another session', '7:00:0000000000000000' FROM garterfossil_decision"
            it.execute(f"INSERT INTO garterfossil_decision {other}")
        self.left.before["start"] = lambda: self.assertEqual(self.mirror.decided(), [gtrid])
        with self.manager() as xa:
            self.move(xa)
        self.assertEqual(self.mirror.rows("incarnation", "garterfossil_manager"), [(2,)])
        self.assertEqual(self.mirror.decided(), [])

    def test_while_it_is_away_nothing_is_committed(self):
        with self.manager() as xa:
            self.left.before["prepare"] = lambda: setattr(self.mirror, "is_up", False)
            with self.assertRaises(OutcomeUnknown) as raised:
                self.move(xa)
            self.left.before.clear()
            self.assertEqual(self.written(), ([], []))
            with self.assertRaises(CoordinatorGone):
                self.move(xa)
            self.mirror.is_up = True
            gtrid = str(raised.exception).split(":")[0]
            self.assertIs(xa.outcome(gtrid), Outcome.COMMITTED)
            # However often it was asked for meanwhile, a session that can't begin uses up no incarnation.
            self.assertEqual(self.mirror.rows("incarnation", "garterfossil_manager"), [(2,)])
        self.assertEqual(self.written(), (["take"], ["give"]))

    def test_a_decision_that_may_be_on_one_machine_alone_is_told_to_no_database(self):
        with self.manager() as xa:
            self.left.before["prepare"] = lambda: setattr(self.mirror, "warns", "canceling wait for synchronous replication")
            with self.assertRaisesRegex(OutcomeUnknown, "canceling wait") as raised:
                self.move(xa)
            self.left.before.clear()
            self.assertEqual(self.written(), ([], []))
            gtrid = str(raised.exception).split(":")[0]
            self.assertIs(xa.outcome(gtrid), Outcome.COMMITTED)
        self.assertEqual(self.written(), (["take"], ["give"]))

    def test_a_session_that_it_refuses_does_not_begin(self):
        self.mirror.refuses["SELECT incarnation"] = sqlite3.OperationalError("canceling statement due to lock timeout")
        with self.assertRaisesRegex(CoordinatorGone, "lock timeout"):
            self.manager()
        self.manager().close()

    def test_threads_do_not_wait_for_it_one_after_the_other(self):
        with self.manager() as xa:
            xa._session.coordinator.kill()
            self.mirror.is_up, self.mirror.seconds, self.mirror.asked = False, 1.0, 0
            with ThreadPoolExecutor(8) as threads:
                for done in [threads.submit(self.move, xa) for _ in range(8)]:
                    self.assertIsInstance(done.exception(), CoordinatorGone)
            # One after the other would be eight times, a second each.
            self.assertLess(self.mirror.asked, 5)
            self.mirror.is_up, self.mirror.seconds = True, 0

    def test_an_older_log_than_it_is_refused(self):
        with self.manager() as xa:
            name = xa.name
        with self.manager():
            pass
        os.remove(self.log)
        with self.assertRaisesRegex(SetupError, "older than its mirror"):
            self.manager(name=name)

    def test_an_older_copy_of_the_same_session_is_refused_at_every_start(self):
        xa = self.manager()
        # What a snapshot of the machine would have, taken while the session runs.
        shutil.copy(self.log, self.log + ".copy")
        self.right.next["commit_prepared"] = ConnectionLost("killed")
        self.right.before["commit_prepared"] = lambda: xa._session.coordinator.kill()
        gtrid = self.move(xa).gtrid
        self.right.before.clear()
        self.assertEqual((len(self.left.prepared), len(self.right.prepared)), (0, 1))
        os.replace(self.log + ".copy", self.log)
        for _ in range(3):
            with self.assertRaisesRegex(SetupError, "older than its mirror, which has decided to commit"):
                self.manager()
            self.assertEqual(self.mirror.decided(), [gtrid])
            self.assertEqual(len(self.right.prepared), 1)
        self.assertEqual(self.started(), 1)

    def test_what_it_has_decided_is_kept_while_a_database_cannot_be_looked_at(self):
        self.manager().close()
        with sqlite3.connect(self.mirror.path) as it:
            words = [bytes(16).hex(), f"7:{bytes(16).hex()}:{1:016x}"]
            it.execute("INSERT INTO garterfossil_decision SELECT name, ?, ? FROM garterfossil_manager", words)
        self.right.is_up = False
        with self.manager() as xa:
            self.assertEqual(self.mirror.decided(), [bytes(16).hex()])
            self.right.prepared[Xid(7, xa.name.encode() + bytes(16), (1).to_bytes(8, "big"))] = ["give"]
            with self.assertLogs("garterfossil", "ERROR") as logged:
                self.right.is_up = True
                for _ in range(100):
                    if any("knows nothing" in line for line in logged.output):
                        break
                    with contextlib.suppress(ConnectionLost):
                        self.move(xa)
                    time.sleep(0.05)
            self.assertIn("knows nothing", "".join(logged.output))
            # It is neither rolled back nor forgotten.
            self.assertEqual((len(self.right.prepared), self.mirror.decided()[:1]), (1, [bytes(16).hex()]))
            self.right.prepared.clear()

    def test_a_start_before_the_failover_is_refused(self):
        self.manager().close()
        os.remove(self.log)
        for _ in range(2):
            with self.assertRaisesRegex(SetupError, "failover"):
                self.manager()
        self.assertFalse(os.path.exists(self.log))
        self.assertEqual(len(self.fail_over()), 1)
        self.manager().close()

    def test_a_manager_without_a_name_has_none(self):
        with self.assertRaisesRegex(SetupError, "name"):
            self.manager(name="")

    def test_a_log_is_made_of_it_where_the_machine_is_lost(self):
        xa = self.manager()
        self.right.next["commit_prepared"] = "lost"
        self.right.before["commit_prepared"] = lambda: xa._session.coordinator.kill()
        self.move(xa)
        self.right.before.clear()
        # It is committed at the one and not at the other, and the machine is gone.
        self.assertEqual(len(self.mirror.decided()), 1)
        shutil.rmtree(self.machine)
        os.mkdir(self.machine)
        [(path, name, count)] = self.fail_over()
        self.assertEqual((path, name, count), (self.log, xa.name, 1))
        with open(self.log) as it:
            made = json.load(it)
        gtrid = self.mirror.decided()[0]
        self.assertEqual(made["made"][:4], [f"name {name}", "rm 0 bank", "rm 1 shop", f"incarnation {1 + MARGIN}"])
        self.assertEqual(made["made"][4].split(" ")[:2], [gtrid, "2"])
        with self.manager():
            pass
        self.assertEqual(self.written(), (["take"], ["give"]))
        self.assertEqual(self.mirror.decided(), [])

    def test_whoever_is_taken_over_decides_nothing_more(self):
        xa = self.manager()
        self.left.before["prepare"] = lambda: (shutil.move(self.log, self.log + ".lost"), self.fail_over())
        with self.assertRaises(OutcomeUnknown):
            self.move(xa)
        self.assertEqual(self.written(), ([], []))

    def test_of_a_log_and_its_copy_at_work_beside_it_one_decides(self):
        """As where a machine is cloned while its program runs: both give out the same identifiers."""
        xa, clone = self.manager(), self.machine + "-clone"
        shutil.copytree(self.machine, clone)
        clones = []
        self.left.before["prepare"] = lambda: (self.left.before.clear(), clones.append(self.manager(os.path.join(clone, "log"))))
        with self.assertRaises((OutcomeUnknown, RolledBack)):
            self.move(xa)
        self.assertEqual(self.written(), ([], []))
        for _ in range(2):
            with self.assertRaisesRegex(SetupError, "older than its mirror"):
                self.move(xa)
            self.move(clones[0])
        self.assertEqual(self.written(), (["take"] * 2, ["give"] * 2))
        clones[0].close()

    def test_whoever_is_taken_over_begins_no_session_however_often_it_tries(self):
        xa = self.manager()
        shutil.move(self.log, self.log + ".lost")
        self.fail_over()
        os.replace(self.log + ".lost", self.log)
        xa._session.coordinator.kill()
        for _ in range(2 * MARGIN):
            with self.assertRaisesRegex(SetupError, "older than its mirror"):
                self.move(xa)
        self.assertEqual(self.started(), 1)

    def test_many_rows_leave_by_statements_that_a_database_takes(self):
        self.manager().close()
        with sqlite3.connect(self.mirror.path) as it:
            for gtrid in (f"{number:032x}" for number in range(1000)):
                it.execute("INSERT INTO garterfossil_decision SELECT name, ?, ? FROM garterfossil_manager", [gtrid, f"7:{gtrid}:{1:016x}"])
        self.manager().close()
        self.assertEqual(self.mirror.decided(), [])
        self.assertLess(max(statement.count("%s") for statement in self.mirror.statements), 300)

    def test_starts_that_the_mirror_was_not_told_of_are_fewer_than_a_failover_adds(self):
        self.manager().close()
        for _ in range(3):
            self.mirror.refuses["UPDATE garterfossil_manager SET log"] = sqlite3.OperationalError("no standby")
            with self.assertRaises(CoordinatorGone):
                self.manager()
            [(told,)] = self.mirror.rows("incarnation", "garterfossil_manager")
            self.assertEqual(self.started(), told + 1)

    def test_a_log_that_is_there_is_left_alone(self):
        with self.manager():
            pass
        with self.assertRaisesRegex(SetupError, "no log to be made"):
            self.fail_over()

    def test_of_several_managers_one_is_to_be_named(self):
        names = ["shop-1", "shop-2"]
        for name in names:
            self.manager(name=name).close()
            os.remove(self.log)
        with self.assertRaisesRegex(SetupError, "--name"):
            self.fail_over()
        self.assertEqual([name for _, name, _ in self.fail_over(only=names[1])], names[1:])
