"""PostgreSQL as a resource manager, by psycopg (3.1 or later). Tried with PostgreSQL 15; needs 13."""

from __future__ import annotations

from typing import Any

from . import postgresql
from .base import Place

#: What psycopg's own connection shows to a program.
SHOWN = frozenset(
    "adapters add_notice_handler add_notify_handler broken closed cursor_factory deferrable fileno info isolation_level"
    " prepare_threshold prepared_max read_only remove_notice_handler remove_notify_handler row_factory server_cursor_factory".split()
)


class PostgreSQL(postgresql.PostgreSQL):
    """A database of PostgreSQL, by psycopg. `dsn` and `parameters` are those of psycopg.connect; all else is as with the one by
    psycopg2."""

    SQLALCHEMY = "postgresql+psycopg"

    def _connection(self, label: str, place: Place) -> PsycopgConnection:
        import psycopg

        return PsycopgConnection(self._link(psycopg, label, place), self._lock_timeout, place)


class PsycopgConnection(postgresql.PostgreSQLConnection):
    """A connection to PostgreSQL, by psycopg."""

    SHOWN = SHOWN

    def __init__(self, link: Any, lock_timeout: float, place: Place = Place()):
        self._warned: list[str] = []
        super().__init__(link, lock_timeout, place)

    @property
    def errors(self) -> Any:
        import psycopg

        return psycopg

    def _plain_cursor(self) -> Any:
        import psycopg

        # The statements of two-phase commit take no parameters that the server would bind.
        return psycopg.ClientCursor(self.link, row_factory=psycopg.rows.tuple_row)

    def _pid(self) -> int:
        return int(self.link.info.backend_pid)

    def _status(self) -> int:
        return int(self.link.info.transaction_status)

    def serve_mirror(self) -> None:
        self.run("SET client_min_messages = warning")
        self.link.add_notice_handler(lambda diagnostic: self._warned.append(str(diagnostic.message_primary)))

    def warnings(self) -> list[str]:
        said, self._warned = self._warned, []
        return said

    def cursor(self, *words: Any, **options: Any) -> Any:
        return self.link.cursor(*words, **options)
