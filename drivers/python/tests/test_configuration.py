"""The file that says what a manager is made of."""

import os
import tempfile
import unittest

from garterfossil import SetupError
from garterfossil.adapters.mariadb import MariaDB
from garterfossil.adapters.postgresql import PostgreSQL
from garterfossil.configuration import Configuration

from .fake_database import FakeDatabase

RIGHT = {"log": "decisions.db", "database": [{"kind": "postgresql", "dsn": "dbname=bank"}, {"kind": "mariadb", "user": "bank"}]}


class Configurations(unittest.TestCase):
    def made(self, **more):
        return Configuration.of({**RIGHT, **more}, "/etc/bank/bank.toml")

    def test_a_log_without_a_folder_is_in_that_of_the_file(self):
        self.assertEqual(self.made().log, "/etc/bank/decisions.db")
        self.assertEqual(self.made(log="/var/lib/bank/decisions.db").log, "/var/lib/bank/decisions.db")

    def test_databases_are_in_the_order_of_the_tables(self):
        self.assertEqual([type(one) for one in self.made().databases], [PostgreSQL, MariaDB])

    def test_databases_with_names(self):
        tables = [{"as": "bank", **RIGHT["database"][0]}, {"as": "shop", **RIGHT["database"][1]}]
        self.assertEqual(self.made(database=tables).names, ["bank", "shop"])
        for wrong in ([tables[0], RIGHT["database"][1]], [tables[0], tables[0]]):
            with self.assertRaisesRegex(SetupError, "name of its own"):
                self.made(database=wrong)

    def test_what_is_given_is_what_the_manager_gets(self):
        made = self.made(name="shop-1", threads=4, patience=2.5)
        self.assertEqual(made.options, {"name": "shop-1", "threads": 4, "patience": 2.5})

    def test_an_adapter_of_the_users_own(self):
        made = self.made(database=[{"kind": "tests.fake_database:FakeDatabase"}])
        self.assertEqual([type(one) for one in made.databases], [FakeDatabase])

    def test_a_file_that_is_nested_deeply(self):
        deep = [100000 * "[", f"log{3000 * '.a'} = 1", f"name = {2000 * '['}{2000 * ']'}", f"[[database]]\nkind = {2000 * '['}"]
        with tempfile.TemporaryDirectory() as folder:
            path = os.path.join(folder, "bank.toml")
            for text in deep:
                with open(path, "w") as it:
                    it.write(text)
                with self.subTest(text[:40]), self.assertRaisesRegex(SetupError, "bank.toml: it is nested too deeply|bank.toml: |tomli"):
                    Configuration.read(path)

    def test_what_is_wrong_is_told_with_the_file_and_the_key(self):
        wrong = [
            ({"database": ["bank"]}, r"\[\[database\]\]"),
            ({"database": [3]}, r"\[\[database\]\]"),
            ({"mirror": "bank"}, r"\[mirror\]"),
            ({"mirror": 3}, r"\[mirror\]"),
            ({"database": [{"as": [], **RIGHT["database"][0]}]}, "name of its own"),
            ({"database": [{"as": 3, **RIGHT["database"][0]}]}, "name of its own"),
            ({"thread": 4}, "thread = 4"),
            ({"threads": "4"}, "threads = '4'"),
            ({"database": []}, r"\[\[database\]\]"),
            ({"database": [{"kind": "oracle"}]}, "database 0: kind = 'oracle'"),
            ({"database": [{"dsn": "dbname=bank"}]}, "database 0: kind = None"),
            ({"database": [{"kind": "tests.fake_database:Nothing"}]}, "Nothing"),
            ({"database": [{"kind": "collections:OrderedDict"}]}, "no adapter"),
            ({"database": [{"kind": "tests.fake_database:FakeDatabase", "colour": 1}]}, "colour"),
        ]
        for more, text in wrong:
            with self.subTest(text), self.assertRaisesRegex(SetupError, f"/etc/bank/bank.toml: .*{text}"):
                self.made(**more)

    def test_a_file_that_is_not_there_or_is_no_toml(self):
        with tempfile.TemporaryDirectory() as folder:
            path = os.path.join(folder, "bank.toml")
            with self.assertRaisesRegex(SetupError, "bank.toml: No such file|tomli"):
                Configuration.read(path)
            with open(path, "w") as it:
                it.write("log = ")
            with self.assertRaisesRegex(SetupError, "bank.toml: |tomli"):
                Configuration.read(path)


if __name__ == "__main__":
    unittest.main()
