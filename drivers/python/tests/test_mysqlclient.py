"""MariaDB's adapter by mysqlclient: all that the one by PyMySQL is tried for, over a stand-in for mysqlclient."""

import sys
import types
import unittest
from unittest import mock

from garterfossil.adapters.mysqlclient import MariaDB

from . import test_mariadb as by_pymysql

MySQLdb = types.ModuleType("MySQLdb")
MySQLdb.cursors = types.ModuleType("MySQLdb.cursors")
MySQLdb.cursors.Cursor = None
MySQLdb.constants = by_pymysql.pymysql.constants
for name in ("MySQLError", "InterfaceError", "OperationalError", "IntegrityError"):
    setattr(MySQLdb, name, getattr(by_pymysql.pymysql.err, name))


class ByMysqlclient:
    def setUp(self):
        for patch in (
            mock.patch.multiple(by_pymysql, pymysql=MySQLdb, MariaDB=MariaDB),
            mock.patch.multiple(
                by_pymysql.Link,
                create=True,
                fileno=lambda link: link._sock.fileno(),
                send_query=lambda link, statement: link._execute_command(None, statement),
                read_query_result=lambda link: link._read_query_result(),
                warning_count=lambda link: link._result.warning_count,
            ),
            mock.patch.dict(sys.modules, {"MySQLdb": MySQLdb, "MySQLdb.cursors": MySQLdb.cursors}),
        ):
            patch.start()
            self.addCleanup(patch.stop)
        # (The tests raise errors of `pymysql.err`; those of mysqlclient are its own.)
        MySQLdb.err = MySQLdb
        super().setUp()


class Mysqlclients(ByMysqlclient, by_pymysql.MariaDBs):
    pass


class Recoveries(ByMysqlclient, by_pymysql.Recovery):
    pass


if __name__ == "__main__":
    unittest.main()
