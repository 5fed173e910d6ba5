"""MariaDB as a resource manager, by mysqlclient (the module MySQLdb). Tried with MariaDB 10.11."""

from __future__ import annotations

from typing import Any

from . import mariadb
from .base import Place

#: What mysqlclient's own connection shows to a program.
SHOWN = frozenset(
    "affected_rows character_set_name converter cursorclass encoding errno error escape escape_string field_count get_autocommit"
    " get_character_set_info get_host_info get_proto_info get_server_info info insert_id literal open port server_capabilities"
    " show_warnings stat string_literal thread_id warning_count".split()
)


class MariaDB(mariadb.MariaDB):
    """A database of MariaDB, whose tables are InnoDB's, by mysqlclient. `parameters` are those of MySQLdb.connect; all else is as
    with the one by PyMySQL."""

    SQLALCHEMY = "mariadb+mysqldb"

    def _connection(self, place: Place) -> MysqlclientConnection:
        import MySQLdb

        link = self._link(MySQLdb, MySQLdb.MySQLError, place, ["connect_timeout"])
        return MysqlclientConnection(link, self._lock_timeout, place)


class MysqlclientConnection(mariadb.MariaDBConnection):
    """A connection to MariaDB, by mysqlclient."""

    SHOWN = SHOWN

    @property
    def errors(self) -> Any:
        import MySQLdb

        return MySQLdb

    def _descriptor(self) -> int | None:
        return int(self.link.fileno())

    def _plain_cursor(self) -> Any:
        import MySQLdb.cursors

        return self.link.cursor(MySQLdb.cursors.Cursor)

    def _send(self, statement: str) -> None:
        self.link.send_query(statement)

    def _read(self) -> None:
        self.link.read_query_result()

    def _warning_count(self) -> int:
        return int(self.link.warning_count())
