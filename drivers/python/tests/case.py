"""What the tests over databases in memory have in common."""

import json
import logging
import os
import shutil
import sys
import tempfile
import unittest

from garterfossil import TransactionManager

from .fake_database import FakeDatabase

COORDINATOR = os.path.join(os.path.dirname(__file__), "fake_coordinator.py")


class Case(unittest.TestCase):
    """Two databases in memory, and a log, in a folder of the test's own."""

    def setUp(self):
        log = logging.getLogger("garterfossil")
        self.addCleanup(log.setLevel, log.level)
        log.setLevel(logging.CRITICAL)
        self.folder = tempfile.mkdtemp()
        self.addCleanup(shutil.rmtree, self.folder)
        self.log = os.path.join(self.folder, "log")
        self.left, self.right = FakeDatabase(), FakeDatabase()

    def manager(self, dies_at=None, threads=2, patience=1.0, **options):
        command = [sys.executable, COORDINATOR, self.log] + ([dies_at] if dies_at else [])
        return TransactionManager([self.left, self.right], self.log, threads=threads, patience=patience, command=command, **options)

    def written(self):
        return self.left.written, self.right.written

    def in_the_log(self):
        with open(self.log) as it:
            return json.load(it)

    def requests(self, *names):
        """The requests of these names, as the coordinator got them."""
        return [line for line in self.in_the_log()["requests"] if line.split(" ")[0] in names]

    def before_the_votes_are_told(self, xa, do):
        """Has something done once, when each database has voted."""
        coordinator, left = xa._session.coordinator, [do]
        post = coordinator.post

        def posts(move, *words, **more):
            if move.startswith("tell ") and left:
                left.pop()()
            return post(move, *words, **more)

        coordinator.post = posts

    def move(self, xa):
        with xa.transaction() as t:
            t[0].execute("take")
            t[1].execute("give")
        return t
