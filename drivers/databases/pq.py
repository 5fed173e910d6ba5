"""A stand-in for psycopg2 if that isn't installed: only what the driver's adapter uses of it, over libpq by ctypes.

The adapter's own code is what is tried with it; psycopg2 itself isn't. No program should use it for anything else."""

import ctypes
import ctypes.util
import sys
import types

PQ = ctypes.CDLL(ctypes.util.find_library("pq") or "libpq.so.5")
CONNECTION_OK = 0
COMMAND_OK, TUPLES_OK = 1, 2
SQLSTATE = ord("C")
(TRANSACTION_STATUS_IDLE, TRANSACTION_STATUS_ACTIVE, TRANSACTION_STATUS_INTRANS, TRANSACTION_STATUS_INERROR,
 TRANSACTION_STATUS_UNKNOWN) = range(5)
BOOL, INTEGERS, NUMERIC = 16, (20, 21, 23, 26), 1700

POINTER, TEXT = ctypes.c_void_p, ctypes.c_char_p
for name, result, arguments in [
    ("PQconnectdb", POINTER, [TEXT]),
    ("PQstatus", ctypes.c_int, [POINTER]),
    ("PQerrorMessage", TEXT, [POINTER]),
    ("PQfinish", None, [POINTER]),
    ("PQbackendPID", ctypes.c_int, [POINTER]),
    ("PQsocket", ctypes.c_int, [POINTER]),
    ("PQtransactionStatus", ctypes.c_int, [POINTER]),
    ("PQexec", POINTER, [POINTER, TEXT]),
    ("PQresultStatus", ctypes.c_int, [POINTER]),
    ("PQresultErrorMessage", TEXT, [POINTER]),
    ("PQresultErrorField", TEXT, [POINTER, ctypes.c_int]),
    ("PQcmdStatus", TEXT, [POINTER]),
    ("PQcmdTuples", TEXT, [POINTER]),
    ("PQntuples", ctypes.c_int, [POINTER]),
    ("PQnfields", ctypes.c_int, [POINTER]),
    ("PQftype", ctypes.c_uint, [POINTER, ctypes.c_int]),
    ("PQgetisnull", ctypes.c_int, [POINTER, ctypes.c_int, ctypes.c_int]),
    ("PQgetvalue", TEXT, [POINTER, ctypes.c_int, ctypes.c_int]),
    ("PQclear", None, [POINTER]),
    ("PQsetNoticeProcessor", POINTER, [POINTER, POINTER, POINTER]),
]:
    function = getattr(PQ, name)
    function.restype, function.argtypes = result, arguments


@ctypes.CFUNCTYPE(None, POINTER, TEXT)
def drop_notice(_, notice):
    """psycopg2 keeps notices; libpq would print them."""


class Error(Exception):
    """An error, with the server's SQLSTATE if the server told it."""

    pgcode = None


class InterfaceError(Error):
    pass


class DatabaseError(Error):
    pass


class OperationalError(DatabaseError):
    pass


class IntegrityError(DatabaseError):
    pass


class ProgrammingError(DatabaseError):
    pass


#: The kinds of errors by the classes of SQLSTATE, as psycopg2 has them.
KINDS = {"08": OperationalError, "40": OperationalError, "53": OperationalError, "55": OperationalError,
         "57": OperationalError, "58": OperationalError, "23": IntegrityError, "42": ProgrammingError}


def literal(value):
    if value is None:
        return "NULL"
    if isinstance(value, (bool, int, float)):
        return str(value)
    return "'" + str(value).replace("'", "''") + "'"


def value_of(kind, text):
    if kind in INTEGERS or kind == NUMERIC and "." not in text:
        return int(text)
    return text == "t" if kind == BOOL else text


def connect(dsn="", **parameters):
    words = [dsn] + ["%s='%s'" % (name, str(value).replace("'", "\\'")) for name, value in parameters.items()]
    pointer = PQ.PQconnectdb(" ".join(words).encode())
    if PQ.PQstatus(pointer) != CONNECTION_OK:
        message = PQ.PQerrorMessage(pointer).decode()
        PQ.PQfinish(pointer)
        raise OperationalError(message)
    return Connection(pointer)


class Connection:
    def __init__(self, pointer):
        self.pointer = pointer
        PQ.PQsetNoticeProcessor(pointer, ctypes.cast(drop_notice, POINTER), None)
        # psycopg2 begins a transaction by itself if this is false; the adapter sets it at once.
        self.autocommit = False

    @property
    def closed(self):
        return 1 if self.pointer is None else 0 if PQ.PQstatus(self.pointer) == CONNECTION_OK else 2

    def get_backend_pid(self):
        return PQ.PQbackendPID(self.pointer)

    def fileno(self):
        return PQ.PQsocket(self.pointer)

    def get_transaction_status(self):
        return TRANSACTION_STATUS_UNKNOWN if self.pointer is None else PQ.PQtransactionStatus(self.pointer)

    def cursor(self, cursor_factory=None):
        return Cursor(self)

    def close(self):
        pointer, self.pointer = self.pointer, None
        if pointer is not None:
            PQ.PQfinish(pointer)

    __del__ = close


class Cursor:
    def __init__(self, connection):
        self.connection = connection
        self.description = self.statusmessage = None
        self.rowcount = -1
        self.rows = []

    def __enter__(self):
        return self

    def __exit__(self, *_):
        pass

    def execute(self, statement, parameters=None):
        if self.connection.pointer is None:
            raise InterfaceError("connection already closed")
        if not self.connection.autocommit:
            raise InterfaceError("this stand-in is for autocommit only")
        if parameters is not None:
            statement = statement % tuple(map(literal, parameters))
        result = PQ.PQexec(self.connection.pointer, statement.encode())
        try:
            self.take(result)
        finally:
            PQ.PQclear(result)

    def take(self, result):
        status = PQ.PQresultStatus(result)
        if status not in (COMMAND_OK, TUPLES_OK):
            state = PQ.PQresultErrorField(result, SQLSTATE)
            message = (PQ.PQresultErrorMessage(result) or b"").decode() or PQ.PQerrorMessage(self.connection.pointer).decode()
            error = KINDS.get(state[:2].decode() if state else "08", DatabaseError)(message)
            error.pgcode = state.decode() if state else None
            raise error
        self.statusmessage = PQ.PQcmdStatus(result).decode()
        self.rowcount = int(PQ.PQcmdTuples(result) or -1)
        if status == TUPLES_OK:
            columns = range(PQ.PQnfields(result))
            self.description = [PQ.PQftype(result, column) for column in columns]
            self.rows = [tuple(self.value(result, row, column) for column in columns) for row in range(PQ.PQntuples(result))]

    def value(self, result, row, column):
        if PQ.PQgetisnull(result, row, column):
            return None
        return value_of(self.description[column], PQ.PQgetvalue(result, row, column).decode())

    def fetchall(self):
        return self.rows


def install():
    """Puts itself in psycopg2's place."""
    extensions = types.ModuleType("psycopg2.extensions")
    extensions.cursor = Cursor
    extensions.TRANSACTION_STATUS_IDLE = TRANSACTION_STATUS_IDLE
    extensions.TRANSACTION_STATUS_INERROR = TRANSACTION_STATUS_INERROR
    sys.modules["psycopg2"] = sys.modules[__name__]
    sys.modules["psycopg2.extensions"] = extensions
