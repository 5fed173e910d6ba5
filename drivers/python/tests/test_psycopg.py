"""PostgreSQL's adapter by psycopg: all that the one by psycopg2 is tried for, over a stand-in for psycopg."""

import sys
import types
import unittest
from unittest import mock

from garterfossil.adapters.psycopg import PostgreSQL

from . import test_postgresql as by_psycopg2

psycopg = types.ModuleType("psycopg")
psycopg.rows = types.SimpleNamespace(tuple_row=None)
psycopg.ClientCursor = lambda link, row_factory: by_psycopg2.Cursor(link)


class Error(by_psycopg2.Error):
    def __init__(self, sqlstate=None):
        Exception.__init__(self, f"error {sqlstate}")
        self.sqlstate = sqlstate


psycopg.Error = Error
for name in ("DatabaseError", "OperationalError", "ProgrammingError", "IntegrityError"):
    setattr(psycopg, name, type(name, (Error,), {}))


class Link(by_psycopg2.Link):
    """A connection: what it knows of itself is in `info`."""

    get_backend_pid = get_transaction_status = None

    def add_notice_handler(self, handler):
        self.handler = handler

    def warn(self, text):
        self.handler(types.SimpleNamespace(message_primary=text))

    @property
    def info(self):
        return types.SimpleNamespace(backend_pid=4711, transaction_status=self.status)


class Psycopgs(by_psycopg2.PostgreSQLs):
    def setUp(self):
        for patch in (
            mock.patch.multiple(by_psycopg2, psycopg2=psycopg, PostgreSQL=PostgreSQL, Link=Link),
            mock.patch.dict(sys.modules, {"psycopg": psycopg}),
        ):
            patch.start()
            self.addCleanup(patch.stop)
        super().setUp()


if __name__ == "__main__":
    unittest.main()
