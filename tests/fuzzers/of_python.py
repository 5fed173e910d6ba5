"""The readers of the driver in Python: settings in TOML, the file beside a log, identifiers that
databases list, and what a coordinator says."""

import contextlib
import io
import logging
import os
import random
import sys

from fuzzers.chance import lines_of, a_request, mutated
from fuzzers.of_program import TOP, read

SETTINGS = b"""log = "decisions.db"
name = "shop-1"
threads = 4
patience = 2.5
timeout = 9
program = "xatm"
[[database]]
as = "bank"
kind = "postgresql"
dsn = "dbname=bank"
[[database]]
as = "stock"
kind = "mariadb"
unix_socket = "/run/mysqld/mysqld.sock"
database = "stock"
[mirror]
kind = "postgresql"
dsn = "dbname=mirror"
"""
BESIDE = b"""{
 "version": 1,
 "shut": "Another \\"log\\" is at work: \\u00e4",
 "manager": "shop-1",
 "incarnation": 12,
 "databases": [
  {
   "number": 0,
   "at": "PostgreSQL('dbname=bank')",
   "identity": "postgresql 7301234567890123456 16384"
  },
  {
   "number": 1,
   "at": "MariaDB(database='stock')",
   "identity": "mariadb 5f0e"
  }
 ]
}
"""
GREETING = (
    b"protocol 1 version 1.0.0 name shop-1 rms bank stock\nrestarted 2 1 0\n;status up 0\n"
    b"begun 00000000000000020000000000000001\nowed 0\nbye\n"
)
#: Prints a file, and ends once it is told nothing more.
SAYS = (
    "import shutil, sys; shutil.copyfileobj(open(sys.argv[1], 'rb'), sys.stdout.buffer); sys.stdout.flush(); sys.stdin.read()"
)


class Python:
    def __init__(self, folder, seed):
        self.folder, self.chance = folder, random.Random(seed)
        sys.path.insert(0, f"{TOP}/drivers/python")
        import garterfossil

        self.it = garterfossil
        # What is written needn't outlive the machine here.
        os.fsync = lambda _: None
        logging.getLogger("garterfossil").addHandler(logging.NullHandler())
        logging.getLogger("garterfossil").propagate = False

    def put(self, name, text):
        with open(f"{self.folder}/{name}", "wb") as it:
            it.write(text)
        return f"{self.folder}/{name}"

    def ends(self, what):
        """Whether this ends well, or by an exception that the driver promises."""
        try:
            with contextlib.redirect_stderr(io.StringIO()):
                what()
        except self.it.XaError:
            pass
        except Exception as error:
            print(f"{type(error).__name__}: {str(error)[:200]}", flush=True)
            return False
        return True

    def of_settings(self):
        from garterfossil.configuration import Configuration

        text = mutated(self.chance, SETTINGS, [SETTINGS])
        path = self.put("settings.toml", text)
        return text, self.ends(lambda: Configuration.read(path))

    def of_beside(self):
        """The file beside a log: what is read is written, and read as the same."""
        from garterfossil.identities import Identities

        text = mutated(self.chance, BESIDE, [BESIDE])
        self.put("it.db-databases", text)

        def reads():
            found = Identities(f"{self.folder}/it.db", "shop-1", False)
            found.note_session(1 << 62)
            found.see_not_older(1 << 62)
            before = read(f"{self.folder}/it.db-databases")
            again = Identities(f"{self.folder}/it.db", "shop-1", False)
            again.note_session((1 << 62) + 1)
            assert read(f"{self.folder}/it.db-databases").replace(b"4611686018427387905", b"4611686018427387904") == before

        return text, self.ends(reads)

    def of_branches(self):
        """Identifiers as databases list them."""
        whole = b"7:73686f702d3100000000000000070000000000000001:0000000000000000"
        text = mutated(self.chance, whole, [whole])
        asked = text.decode("utf-8", "replace")

        def reads():
            try:
                assert str(self.it.Xid.parse(asked)) == asked
            except ValueError:
                pass

        return text, self.ends(reads)

    def of_replies(self):
        """What a coordinator says, and what becomes of requests then."""
        from garterfossil.coordinator import Coordinator

        base = GREETING if self.chance.random() < 0.5 else GREETING + lines_of(self.chance, a_request)
        text = mutated(self.chance, base, [GREETING])
        path = self.put("said", text)

        def talks():
            coordinator = Coordinator.start([sys.executable, "-S", "-E", "-c", SAYS, path], 0.5)
            try:
                for asked in ("begin 0", "owed 0", "issue 0 0 xa_open;answer 0 0 xa_open 0"):
                    coordinator.ask(asked)
            finally:
                coordinator.quit()

        return text, self.ends(talks)
