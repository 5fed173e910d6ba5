"""A file that says what a transaction manager is made of, for a program and for `python -m garterfossil` alike."""

from __future__ import annotations

import importlib
import os
import sys
from collections.abc import Mapping, Sequence
from dataclasses import dataclass, field
from typing import Any

from .adapters.base import Database
from .errors import SetupError
from .manager import TransactionManager

#: The kinds of databases, by the modules that reach them, and where their adapters are.
KINDS = {
    "postgresql": "garterfossil.adapters.postgresql:PostgreSQL",
    "psycopg": "garterfossil.adapters.psycopg:PostgreSQL",
    "mariadb": "garterfossil.adapters.mariadb:MariaDB",
    "mysqlclient": "garterfossil.adapters.mysqlclient:MariaDB",
}
#: The keys of the file, except `database`, and the kinds of their values.
NUMBER = (int, float)
KEYS: Mapping[str, Any] = {"log": str, "name": str, "threads": int, "patience": NUMBER, "timeout": NUMBER, "program": str}


@dataclass(frozen=True)
class Configuration:
    """What a transaction manager is made of. `options` are keywords of `TransactionManager`."""

    databases: list[Database]
    log: str
    #: The names of the databases, if they were given any.
    names: Sequence[str] = ()
    options: dict[str, Any] = field(default_factory=dict)

    @classmethod
    def read(cls, path: str) -> Configuration:
        """What a file of TOML says. Raises SetupError if it can't be read, or says something else."""
        try:
            return cls.of(_toml(path), path)
        except RecursionError as error:
            raise SetupError(f"{path}: it is nested too deeply") from error

    @classmethod
    def of(cls, found: Mapping[str, Any], path: str) -> Configuration:
        """What the tables of such a file say. A log without a folder is in that of the file."""
        for key, value in found.items():
            if key not in ("database", "mirror") and not isinstance(value, KEYS.get(key, ())):
                raise SetupError(f"{path}: {key} = {value!r} isn't right; the keys are {', '.join(KEYS)}, [[database]] and [mirror]")
        if "log" not in found or not found.get("database") or not _are_tables(found["database"]):
            raise SetupError(f"{path}: it needs the key log, and a table [[database]] for each database")
        if "mirror" in found and not _are_tables([found["mirror"]]):
            raise SetupError(f"{path}: mirror is a table, [mirror]")
        tables = [dict(table) for table in found["database"]]
        names = [table.pop("as") for table in tables if "as" in table]
        if names and (not all(isinstance(name, str) for name in names) or len(set(names)) != len(tables)):
            raise SetupError(f"{path}: either each database has a name of its own (as = ..), or none has")
        databases = [_database(table, f"{path}: database {rm}") for rm, table in enumerate(tables)]
        log = os.path.join(os.path.dirname(os.path.abspath(path)), found["log"])
        options = {key: found[key] for key in KEYS if key in found and key != "log"}
        if "mirror" in found:
            options["mirror"] = _database(dict(found["mirror"]), f"{path}: the mirror")
        return cls(databases, log, names, options)

    @property
    def name(self) -> str | None:
        """The manager's name, if one is given. Else it is the one that the log keeps."""
        return self.options.get("name")

    @property
    def mirror(self) -> Database | None:
        """Where the decisions are mirrored, if they are."""
        return self.options.get("mirror")

    @property
    def program(self) -> str:
        """The program `xatm`."""
        return str(self.options.get("program", "xatm"))

    @property
    def patience(self) -> float:
        """For how many seconds a database is waited for."""
        return float(self.options.get("patience", 30.0))

    def label(self, rm: int) -> str:
        """What messages call a database."""
        return f"{self.names[rm]}, {self.databases[rm]!r}" if self.names else repr(self.databases[rm])

    def manager(self, log: str | None = None) -> TransactionManager:
        """The transaction manager, or the one of a worker's log. Raises what its constructor does."""
        named = dict(zip(self.names, self.databases))
        return TransactionManager(named or self.databases, log or self.log, **self.options)


def manager_of(path: str) -> TransactionManager:
    """The transaction manager of a file of TOML. Raises SetupError if the file isn't right, and what `TransactionManager` does."""
    return Configuration.read(path).manager()


def _toml(path: str) -> dict[str, Any]:
    try:
        toml: Any = importlib.import_module("tomllib" if sys.version_info >= (3, 11) else "tomli")
    except ImportError:
        raise SetupError("before Python 3.11 such a file needs the module tomli: pip install garterfossil[toml]") from None
    try:
        with open(path, "rb") as it:
            found: dict[str, Any] = toml.load(it)
    except OSError as error:
        raise SetupError(f"{path}: {error.strerror}") from error
    except ValueError as error:
        raise SetupError(f"{path}: {error}") from error
    return found


def _are_tables(found: Any) -> bool:
    return isinstance(found, list) and all(isinstance(one, dict) for one in found)


def _database(table: dict[str, Any], where: str) -> Database:
    """The database of a table: its key `kind` names the adapter, and the others are what the adapter takes."""
    kind = table.pop("kind", None)
    path = KINDS.get(kind, kind) if isinstance(kind, str) else ""
    module, _, name = path.partition(":")
    if not name:
        raise SetupError(f"{where}: kind = {kind!r} is none of {', '.join(KINDS)}, nor an adapter as 'module:Class'")
    try:
        database = getattr(importlib.import_module(module), name)(**table)
    except (ImportError, AttributeError, TypeError, ValueError) as error:
        raise SetupError(f"{where}: {error}") from error
    if not isinstance(database, Database):
        raise SetupError(f"{where}: {path} is no adapter of a database")
    return database
