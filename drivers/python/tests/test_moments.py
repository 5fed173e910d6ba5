"""The moments of drivers/databases, at which its stories have something done. They reach into the driver, and the stories themselves
need databases."""

import os
import sys
import unittest

from .case import Case

FOLDER = os.path.join(os.path.dirname(os.path.dirname(os.path.dirname(os.path.abspath(__file__)))), "databases")


@unittest.skipUnless(os.path.exists(os.path.join(FOLDER, "moments.py")), "the package alone")
class Moments(Case):
    def setUp(self):
        super().setUp()
        sys.path.insert(0, FOLDER)
        self.addCleanup(sys.path.remove, FOLDER)

    def test_each_comes_once(self):
        import moments

        met = []

        def note(name):
            return lambda: met.append((name, len(self.left.written), len(self.left.prepared)))

        with self.manager() as xa:
            self.move(xa)
            moments.before_a_move(xa, "tell", note("before a move"))
            moments.behind_the_decision(xa, note("behind the decision"))
            with xa.transaction() as t:
                t[0].execute("take 2")
                t[1].execute("give 2")
                moments.before_a_call(xa, "prepare", note("before a call"))
            self.move(xa)
        # One transaction is committed at each, and the second one is prepared by and by.
        self.assertEqual(met, [("before a call", 1, 0), ("before a move", 1, 1), ("behind the decision", 1, 1)])

    def test_connections_beside_that_of_a_branch(self):
        import moments

        with self.manager() as xa, xa.transaction() as t, xa.transaction(independent=True) as other:
            t[0].execute("take")
            other[0].execute("take too")
            other[1].execute("give too")
            line, beside = t._hands.parts[0].line, other._hands.parts[0].connection
            self.assertEqual(moments.beside(xa, line), [beside.number])
            self.assertEqual(len(moments.connections(moments.lines(xa))), 3)


if __name__ == "__main__":
    unittest.main()
