"""That a branch of another log shuts the log for good: no session begins any more, in this process or a later one.

usage: python3 -m unittest test_shut (in this folder)"""

import json
import os
import tempfile
import unittest

import conducted

#: A coordinator that finds a branch of another log on the first page.
COORDINATOR = """#!/bin/sh
echo start >> "$0.starts"
echo "restarted 1 0 0"
while read -r word rest; do
    case $word in
        recover) echo "recover 32 TMSTARTRSCAN" ;;
        *) echo "strange 7:00"; exit ;;
    esac
done
"""


class Database:
    """One that lists nothing, and has no other connection."""

    number = 1

    def __init__(self, words, label):
        self.link = self

    def close(self):
        pass

    def numbers(self):
        return {self.number}

    def listed(self):
        return []


class Shut(unittest.TestCase):
    def test_no_later_session_begins(self):
        with tempfile.TemporaryDirectory() as home:
            program, beside = f"{home}/program", f"{home}/log-databases"
            with open(program, "w", encoding="utf-8") as it:
                it.write(COORDINATOR)
            os.chmod(program, 0o755)
            noted = {"version": 1, "manager": "conducted", "databases": [{"number": 0, "at": "here"}]}
            with open(beside, "w", encoding="utf-8") as it:
                json.dump(noted, it)
            for _ in range(2):
                with self.assertRaises(conducted.Shut):
                    conducted.Manager(program, f"{home}/log", [(Database, None)], 1)
            with open(beside, encoding="utf-8") as it:
                self.assertEqual(json.load(it), noted | {"shut": "strange 7:00"})
            with open(f"{program}.starts", encoding="utf-8") as it:
                self.assertEqual(it.read(), "start\n")


if __name__ == "__main__":
    unittest.main()
