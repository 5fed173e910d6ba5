"""The databases of a transaction manager, each with its number, and with a name if it was given one."""

from __future__ import annotations

import re
from collections.abc import Iterator, Mapping, Sequence

from .adapters.base import Database, Place

#: The coordinator takes so many resource managers.
MOST = 64
#: A manager's name, and that of a database, which the log keeps.
NAME = re.compile(r"[A-Za-z0-9_-]{1,16}")
RM_NAME = re.compile(r"[A-Za-z0-9_-]{1,64}")


class Databases:
    """The databases of a transaction manager: a sequence, numbered by the places in it, or a mapping, which gives each a name as
    well, and numbers them in its order. Raises TypeError or ValueError if they are none of both."""

    def __init__(self, databases: Sequence[Database] | Mapping[str, Database]):
        if isinstance(databases, Database) or not isinstance(databases, (Sequence, Mapping)):
            raise TypeError(f"databases: a list of them, or a dict by their names, not {type(databases).__name__}")
        self._all: list[Database] = list(databases.values()) if isinstance(databases, Mapping) else list(databases)
        names = list(databases) if isinstance(databases, Mapping) else []
        self._names: dict[str, int] = {name: number for number, name in enumerate(names)}
        self._require_fit()

    def _require_fit(self) -> None:
        if not 1 <= len(self._all) <= MOST:
            raise ValueError(f"databases: 1 to {MOST} of them, not {len(self._all)}")
        for number, database in enumerate(self._all):
            if not isinstance(database, Database):
                raise TypeError(f"databases: {type(database).__name__} at place {number} is no Database")
            if any(database is other for other in self._all[:number]):
                raise ValueError(f"databases: the one at place {number} stands in the list twice")
        for name in self._names:
            if not isinstance(name, str):
                raise TypeError(f"databases: the name {name!r} is no text")
            if not RM_NAME.fullmatch(name):
                raise ValueError(f"databases: a name has 1 to 64 letters, digits, _ and -, and {name!r} hasn't: the log keeps it")

    @property
    def names(self) -> list[str]:
        """The names of all of them, in the order of their numbers; none, if they have none."""
        return list(self._names)

    def __len__(self) -> int:
        return len(self._all)

    def __getitem__(self, number: int) -> Database:
        return self._all[number]

    def number_of(self, key: int | str) -> int:
        """The number of a database, by that or by its name. Raises IndexError or KeyError if there is none."""
        if isinstance(key, str):
            if key not in self._names:
                raise KeyError(f"there is no database {key!r}: {self._known()}")
            return self._names[key]
        if not isinstance(key, int) or isinstance(key, bool):
            raise TypeError(f"a database is known by a number or a name, not by {key!r}")
        if not 0 <= key < len(self._all):
            raise IndexError(f"there is no database {key}: {self._known()}")
        return key

    def label(self, number: int) -> str:
        """What messages call a database."""
        name = next((name for name, place in self._names.items() if place == number), None)
        return f"database {number}" if name is None else f"database {number} ({name})"

    def placed(self, manager: str, threads: int, patience: float) -> Iterator[tuple[Database, Place]]:
        """Each database with its place at the manager of this name, in the order of their numbers."""
        for number, database in enumerate(self._all):
            yield database, Place(manager, number, threads, patience)

    def _known(self) -> str:
        numbers = f"their numbers are 0 to {len(self._all) - 1}"
        return f"{numbers}, and their names {', '.join(self._names)}" if self._names else numbers
