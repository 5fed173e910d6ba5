"""The command `python -m garterfossil`, over the stand-ins."""

import contextlib
import io
import json
import os
import re
import tempfile
import time
import unittest
from unittest import mock

from garterfossil import command
from garterfossil.configuration import Configuration
from garterfossil.logs import COPY
from garterfossil.xid import Xid

from . import fake_program
from .fake_database import FakeConnection, FakeDatabase

DECIDED, UNDECIDED = "00000000000000010000000000000001", "00000000000000010000000000000002"


def branch(gtrid, rm, name=""):
    return Xid.parse(f"7:{name.encode().hex()}{gtrid}:00000000{rm:08x}")


class Commands(unittest.TestCase):
    def setUp(self):
        folder = tempfile.TemporaryDirectory()
        self.addCleanup(folder.cleanup)
        self.log = os.path.join(folder.name, "decisions.db")
        self.databases = [FakeDatabase(), FakeDatabase()]
        options = {"program": fake_program.made_in(folder.name), "patience": 2.0, "threads": 2}
        self.made = Configuration(self.databases, self.log, options=options)
        patch = mock.patch.object(Configuration, "read", lambda path: self.made)
        patch.start()
        self.addCleanup(patch.stop)
        self.has_log({})

    def has_log(self, rows, incarnation=1):
        with open(self.log, "w") as it:
            json.dump({"incarnation": incarnation, "rows": {gtrid: [str(xid) for xid in xids] for gtrid, xids in rows.items()}, "requests": []}, it)

    def rows(self):
        with open(self.log) as it:
            return sorted(json.load(it)["rows"])

    def in_doubt(self):
        """One transaction is decided and one isn't, and both databases have a branch of each prepared."""
        self.has_log({DECIDED: [branch(DECIDED, rm) for rm in (0, 1)]})
        for rm, database in enumerate(self.databases):
            for gtrid in (DECIDED, UNDECIDED):
                database.prepared[branch(gtrid, rm)] = [f"work of {gtrid[-1]}"]

    def does(self, *words, says=None):
        """The status of the command, and what it prints."""
        printed = io.StringIO()
        answer = mock.patch("builtins.input", side_effect=[says] if says else EOFError)
        with contextlib.redirect_stdout(printed), contextlib.redirect_stderr(printed), answer, mock.patch("logging.basicConfig"):
            status = command.main([*words, "--config", "bank.toml"])
        return status, printed.getvalue()

    def test_nothing_is_in_doubt(self):
        status, printed = self.does("status")
        self.assertEqual(status, 0, printed)
        self.assertIn("0 decided", printed)

    def test_what_each_branch_waits_for_is_shown_with_its_statement(self):
        self.in_doubt()
        status, printed = self.does("status")
        self.assertEqual(status, 1)
        for rm in (0, 1):
            self.assertIn(f"{branch(DECIDED, rm)}: waits for xa_commit", printed)
            self.assertIn(f"{branch(UNDECIDED, rm)}: waits for xa_rollback", printed)
            self.assertIn(self.databases[rm].by_hand(command.Call("xa_commit", branch(DECIDED, rm))), printed)
        self.assertEqual([len(database.prepared) for database in self.databases], [2, 2])

    def test_branches_of_others_are_told_with_their_age_and_left_alone(self):
        foreign = branch(UNDECIDED, 0, "shop-2")
        self.databases[0].prepared[foreign] = []
        with mock.patch.object(FakeConnection, "ages", lambda connection: {foreign: 7500.0}):
            status, printed = self.does("status")
        self.assertEqual(status, 0)
        self.assertIn("1 of the manager shop-2, the oldest for 2 hours", printed)
        self.assertIn(str(foreign), printed)

    def at_work(self):
        """A program has the log, as far as one can see."""
        patch = mock.patch("garterfossil.logs._printed", lambda *_: (["incarnation 3"], f"xatm: log.db: {COPY}"))
        patch.start()
        self.addCleanup(patch.stop)

    def test_a_service_at_work_is_healthy_although_branches_are_between_their_votes_and_their_decision(self):
        self.at_work()
        for number, database in enumerate(self.databases):
            database.prepared[branch(UNDECIDED, number)] = []
            # Each look finds other ones.
            database.before["listed"] = lambda database=database, number=number: (
                database.prepared.clear(), database.prepared.update({branch(f"{len(database.calls):032x}", number): []})
            )  # fmt: skip
        begun = time.monotonic()
        status, printed = self.does("status")
        self.assertEqual(status, 0, printed)
        self.assertIn("0 in doubt", printed)
        self.assertLess(time.monotonic() - begun, 8)

    def test_what_a_program_at_work_does_not_end_is_told_with_its_age(self):
        self.at_work()
        left, right = branch(UNDECIDED, 0), branch(UNDECIDED, 1)
        self.databases[0].prepared[left], self.databases[1].prepared[right] = [], []
        # The one tells the age of its branches, and the other is looked at for a while.
        ages = mock.patch.object(FakeConnection, "ages", lambda it: {left: 90.0} if it.place.number == 0 else {})
        with ages, mock.patch("garterfossil.doubt.settled_listings_of.__defaults__", (0.5,)):
            status, printed = self.does("status")
        self.assertEqual(status, 1)
        self.assertIn(f"{left}: the program that has the log is to end it; prepared for 90 seconds", printed)
        self.assertRegex(printed, f"{right}: the program that has the log is to end it; prepared for [01] seconds")

    def test_the_same_for_programs(self):
        self.in_doubt()
        status, printed = self.does("status", "--format", "json")
        found = json.loads(printed)
        self.assertEqual(status, 1)
        self.assertEqual([log["decided"] for log in found["logs"]], [[DECIDED]])
        waits = {one["branch"]: one["waits_for"] for one in found["databases"][1]["in_doubt"]}
        self.assertEqual(waits, {str(branch(DECIDED, 1)): "xa_commit", str(branch(UNDECIDED, 1)): "xa_rollback"})

    def test_the_same_for_prometheus(self):
        self.in_doubt()
        status, printed = self.does("status", "--format", "prometheus")
        self.assertEqual(status, 1)
        lines = printed.splitlines()
        self.assertIn('garterfossil_in_doubt{database="1"} 2', lines)
        self.assertIn("# TYPE garterfossil_in_doubt gauge", lines)
        self.assertIn(f'garterfossil_log_decided{{log="{self.log}"}} 1', lines)

    def test_the_examples_look_at_what_is_printed(self):
        status, printed = self.does("status", "--format", "prometheus")
        with self.made.manager() as xa:
            printed += xa.metrics()
        examples = os.path.join(os.path.dirname(os.path.dirname(__file__)), "examples")
        for name in ("alarms.yml", "dashboard.json"):
            with open(os.path.join(examples, name)) as it:
                self.assertEqual(set(re.findall(r"garterfossil_\w+", it.read())) - set(re.findall(r"garterfossil_\w+", printed)), set(), name)
        with open(os.path.join(examples, "dashboard.json")) as it:
            self.assertEqual(len(json.load(it)["panels"]), 12)

    def test_what_a_dead_manager_left_is_ended_as_an_operator_says(self):
        foreign = branch(UNDECIDED, 1, "shop-2")
        for name, words in (("commit", ["work"]), ("rollback", [])):
            self.databases[1].prepared[foreign] = ["work"]
            self.databases[1].written.clear()
            self.assertEqual(self.does("end", "--left-by", "shop-3", "--outcome", name, str(foreign), "--yes")[0], 2)
            self.assertEqual(self.does("end", "--left-by", "shop-2", str(foreign), "--yes")[0], 2)
            status, printed = self.does("end", "--left-by", "shop-2", "--outcome", name, str(foreign), says="no")
            self.assertEqual((status, list(self.databases[1].prepared)), (1, [foreign]), printed)
            self.assertEqual(self.does("end", "--left-by", "shop-2", "--outcome", name, str(foreign), says="yes")[0], 0)
            self.assertEqual((self.databases[1].written, self.databases[1].prepared), (words, {}))

    def test_what_is_no_branch_is_told_so(self):
        for text in ("nonsense", "7:0", "x:00:00", "7:0g:00"):
            status, printed = self.does("end", text, "--yes")
            self.assertEqual(status, 2)
            self.assertIn("no identifier of a branch", printed)

    def test_the_manager_of_the_file_is_not_gone(self):
        self.in_doubt()
        status, printed = self.does("end", "--left-by", "", "--outcome", "commit", str(branch(DECIDED, 0)), "--yes")
        self.assertEqual(status, 2, printed)
        self.assertEqual(len(self.databases[0].prepared), 2)
        self.assertNotIn("by hand", printed)

    def test_without_the_log_nobody_says_how_a_branch_ends(self):
        self.in_doubt()
        os.remove(self.log)
        status, printed = self.does("status")
        self.assertEqual(status, 1)
        self.assertIn("no such file", printed)
        self.assertNotIn("waits for xa_", printed)
        status, printed = self.does("end", str(branch(UNDECIDED, 0)), "--yes")
        self.assertEqual(status, 2)
        self.assertEqual([len(database.prepared) for database in self.databases], [2, 2])

    def test_a_log_that_is_older_than_a_branch_says_nothing_of_it(self):
        later = branch("0000000000000009" + UNDECIDED[16:], 0)
        self.databases[0].prepared[later] = []
        for incarnation, what in ((8, "what it waits for isn't known: the log is older"), (9, "waits for xa_rollback")):
            self.has_log({}, incarnation)
            self.assertIn(f"{later}: {what}", self.does("status")[1])

    def test_a_database_that_is_down_is_said_to_be(self):
        self.databases[1].is_up = False
        status, printed = self.does("status")
        self.assertEqual(status, 1)
        self.assertIn("the database is down", printed)

    def test_a_row_of_which_no_branch_is_listed(self):
        self.has_log({DECIDED: []})
        status, printed = self.does("status")
        self.assertEqual(status, 0)
        self.assertIn("1 of the decisions have no branch any more", printed)
        self.databases[1].is_up = False
        self.assertIn("have no branch at the databases that answered", self.does("status")[1])

    def test_recover_does_what_a_start_does(self):
        self.in_doubt()
        status, printed = self.does("recover")
        self.assertEqual(status, 0, printed)
        self.assertEqual([database.written for database in self.databases], [["work of 1"], ["work of 1"]])
        self.assertEqual([database.prepared for database in self.databases], [{}, {}])
        self.assertEqual(self.rows(), [])

    def test_end_asks_first_and_does_what_the_log_says(self):
        self.in_doubt()
        for says in ("no", "y", None):
            self.assertEqual(self.does("end", str(branch(DECIDED, 0)), says=says)[0], 1)
        self.assertEqual(self.databases[0].written, [])
        self.assertEqual(self.does("end", str(branch(DECIDED, 0)), says="yes")[0], 0)
        self.assertEqual(self.does("end", str(branch(UNDECIDED, 1)), "--yes")[0], 0)
        self.assertEqual([database.written for database in self.databases], [["work of 1"], []])
        self.assertEqual([len(database.prepared) for database in self.databases], [1, 1])

    def test_end_refuses_what_is_no_branch_of_the_manager(self):
        self.databases[0].prepared[branch(UNDECIDED, 0, "shop-2")] = []
        for text in ("7:0", str(branch(UNDECIDED, 0)), str(branch(UNDECIDED, 0, "shop-2"))):
            status, printed = self.does("end", text, "--yes")
            self.assertEqual(status, 2, printed)
        self.assertEqual(len(self.databases[0].prepared), 1)

    def test_end_refuses_a_log_that_is_older_than_the_branch(self):
        later = branch("0000000000000009" + UNDECIDED[16:], 0)
        self.databases[0].prepared[later] = []
        status, printed = self.does("end", str(later), "--yes")
        self.assertEqual(status, 2, printed)
        self.assertIn("older", printed)
        self.assertIn(later, self.databases[0].prepared)

    def test_end_refuses_a_log_that_another_program_had_meanwhile(self):
        """It may have decided what the log that was looked at doesn't know."""
        self.in_doubt()
        decided = {gtrid: [branch(gtrid, 0)] for gtrid in (DECIDED, UNDECIDED)}
        self.databases[0].before["listed"] = lambda: self.has_log(decided, incarnation=2)
        status, printed = self.does("end", str(branch(UNDECIDED, 0)), "--yes")
        self.assertEqual(status, 2, printed)
        self.assertIn("another program has had the log", printed)
        self.assertEqual(len(self.databases[0].prepared), 2)

    def test_what_was_committed_is_committed_at_a_database_that_was_put_back(self):
        """The log has no row of it any more."""
        with self.made.manager() as xa, xa.transaction() as t:
            t[0].execute("take")
            t[1].execute("give")
            xid = t[1].xid
        self.databases[1].written.clear()
        self.databases[1].prepared[xid] = ["give"]
        self.assertIn(f"{xid}: waits for xa_commit", self.does("status")[1])
        self.assertEqual(self.does("end", str(xid), "--yes")[0], 0)
        self.assertEqual(self.databases[1].written, ["give"])


if __name__ == "__main__":
    unittest.main()
