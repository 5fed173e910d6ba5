"""Which databases a log belongs to: what they call themselves is kept beside it, and another one in their place is refused."""

import json
import logging
import os
import shutil

from garterfossil import ConnectionLost, SetupError, TransactionManager
from garterfossil.identities import SUFFIX

from . import fake_program
from .case import Case
from .fake_database import FakeDatabase


class Identities(Case):
    def setUp(self):
        super().setUp()
        self.left.identity, self.right.identity = "the left one", "the right one"
        self.program = fake_program.made_in(self.folder)

    def manager(self, *databases, **options):
        given = databases or (self.left, self.right)
        return TransactionManager(list(given), self.log, name="shop", patience=1.0, program=self.program, **options)

    def kept(self):
        with open(self.log + SUFFIX) as it:
            return {entry["number"]: entry["identity"] for entry in json.load(it)["databases"]}

    def killed_in_the_second_phase(self, first=lambda: None):
        """A decided transaction, which is committed at the left one and prepared at the right one."""
        xa = self.manager()
        first()
        self.right.next["commit_prepared"] = ConnectionLost("killed")
        self.right.before["commit_prepared"] = lambda: xa._session.coordinator.kill()
        self.move(xa)
        self.right.before.clear()
        self.assertEqual((len(self.left.prepared), len(self.right.prepared)), (0, 1))

    def test_they_are_kept_before_the_first_branch(self):
        seen = []
        self.left.before["start"] = lambda: seen.append(self.kept())
        with self.manager() as xa:
            self.move(xa)
        self.assertEqual(seen, [{0: "the left one", 1: "the right one"}])

    def test_another_database_for_one_start_is_refused_before_anything_is_asked_of_it(self):
        self.killed_in_the_second_phase()
        other = FakeDatabase()
        other.identity = "another one"
        for _ in range(2):
            with self.assertRaisesRegex(SetupError, "database 1 isn't .* another one, and it was the right one"):
                self.manager(self.left, other)
        self.assertEqual(other.calls, [])
        self.manager().close()
        self.assertEqual(self.written(), (["take"], ["give"]))

    def test_databases_that_change_places_are_told_so(self):
        self.killed_in_the_second_phase()
        with self.assertRaisesRegex(SetupError, "database 0 isn't .*changed places"):
            self.manager(self.right, self.left)
        self.manager().close()
        self.assertEqual(self.written(), (["take"], ["give"]))

    def test_one_that_is_added_at_the_end_is_kept_as_well(self):
        self.manager().close()
        third, other = FakeDatabase(), FakeDatabase()
        third.identity, other.identity = "the third one", "another one"
        self.manager(self.left, self.right, third).close()
        with self.assertRaisesRegex(SetupError, "database 2 isn't"):
            self.manager(self.left, self.right, other)

    def test_one_that_comes_in_its_place_while_the_program_runs(self):
        with self.manager(threads=1) as xa:
            self.move(xa)
            self.right.identity = "another one"
            self.right.connections[-1].hang_up()
            with self.assertRaisesRegex(SetupError, "database 1 isn't"):
                self.move(xa)
            self.right.identity = "the right one"
        self.assertEqual(self.written(), (["take"], ["give"]))

    def test_a_database_without_an_identity_is_taken_as_it_is(self):
        self.left.identity = None
        with self.manager() as xa:
            self.move(xa)
        self.assertEqual(self.kept(), {1: "the right one"})

    def test_a_missing_file_is_made_anew_with_a_warning(self):
        self.manager().close()
        os.remove(self.log + SUFFIX)
        with self.assertLogs("garterfossil", logging.WARNING) as logged:
            self.manager().close()
        self.assertIn("is missing", logged.output[0])
        self.assertEqual(self.kept(), {0: "the left one", 1: "the right one"})

    def test_a_last_line_that_was_removed_by_hand(self):
        self.manager().close()
        with open(self.log + SUFFIX) as it:
            text = it.read().rstrip().rstrip("}")
        with open(self.log + SUFFIX, "w") as it:
            it.write(text.rstrip() + ",\n}\n")
        self.manager().close()
        self.assertEqual(self.kept(), {0: "the left one", 1: "the right one"})

    def test_a_file_that_is_none_is_refused(self):
        self.manager().close()
        for text in ("", "{}", "[]", '{"version": 2}'):
            with open(self.log + SUFFIX, "w") as it:
                it.write(text)
            with self.assertRaisesRegex(SetupError, SUFFIX):
                self.manager()

    def test_a_file_that_is_nested_deeply_or_has_what_is_of_another_kind_is_refused_and_left_as_it_was(self):
        self.manager().close()
        with open(self.log + SUFFIX) as it:
            right = json.load(it)
        text = json.dumps(right)
        entry = json.dumps(right["databases"][0])
        wrong = [
            100000 * "[",
            text.replace('"shop"', 100000 * "[" + 100000 * "]"),
            *(text.replace('"incarnation": 1', f'"incarnation": {one}') for one in ("1e999", "-1e999", "NaN", "-1", "true", '"1"', "null")),
            *(text.replace(entry, entry.replace('"number": 0', f'"number": {one}')) for one in ("[]", '"a"', "1e999", "null")),
            *(text.replace(f'"{what}"', "3") for what in ("shop", "the left one")),
            text.replace('"manager"', '"shut": false, "manager"'),
        ]
        for said in wrong:
            self.assertNotEqual(said, text)
            with open(self.log + SUFFIX, "w") as it:
                it.write(said)
            with self.subTest(said[:200]), self.assertRaisesRegex(SetupError, f"{SUFFIX} can't be read"):
                self.manager()
            with open(self.log + SUFFIX) as it:
                self.assertEqual(it.read(), said)
        with open(self.log + SUFFIX, "w") as it:
            it.write(text)
        self.manager().close()

    def test_an_older_log_is_refused_also_if_no_database_lists_anything(self):
        self.manager().close()
        shutil.copy(self.log, self.log + ".copy")
        self.manager().close()
        shutil.copy(self.log + ".copy", self.log)
        for _ in range(3):
            with self.assertRaisesRegex(SetupError, "has had 1 sessions, and .* knows of 2"):
                self.manager()
        # As the drivers in Java and C write it, and read it.
        with open(self.log + SUFFIX) as it:
            self.assertEqual(json.load(it)["incarnation"], 2)

    def test_an_older_log_is_refused_at_every_start(self):
        self.manager().close()
        shutil.copy(self.log, self.log + ".copy")
        self.killed_in_the_second_phase()
        shutil.copy(self.log + ".copy", self.log)
        # Nothing but what the database lists says so.
        os.remove(self.log + SUFFIX)
        for _ in range(4):
            with self.assertRaisesRegex(SetupError, "has had 1 sessions, and database 1 lists"):
                self.manager()
        with open(self.log) as it:
            self.assertEqual(json.load(it)["incarnation"], 1)
        self.assertEqual(len(self.right.prepared), 1)

    def test_an_older_copy_of_the_same_session_is_refused_at_every_start(self):
        """As of a snapshot of the machine: it has had as many sessions, and a database lists what was committed since."""
        self.killed_in_the_second_phase(lambda: shutil.copy(self.log, self.log + ".copy"))
        os.replace(self.log + ".copy", self.log)
        for _ in range(3):
            with self.assertRaisesRegex(SetupError, "Its transaction was committed, so by hand"):
                self.manager()
        self.assertEqual(len(self.right.prepared), 1)

    def test_a_new_log_in_place_of_one_that_is_lost_is_refused_at_every_start(self):
        self.killed_in_the_second_phase()
        os.remove(self.log)
        for _ in range(3):
            with self.assertRaisesRegex(SetupError, "the log is new, and database 1 lists 1 branches"):
                self.manager()
        self.assertFalse(os.path.exists(self.log))
        self.assertEqual(len(self.right.prepared), 1)
