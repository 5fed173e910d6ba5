"""What a program in C may be given wrongly for one start: another database, two that changed places, an older log, another name; and what
may come to be: one more database, one with another name. Each is refused at every start, and what is right is taken again at once."""

import os
import shutil
import subprocess
import tempfile

import c_programs
from servers import Missing

#: What tx_open returns.
OK, ERROR, FAIL = 0, -6, -7


class Program:
    """A program over databases of PostgreSQL, in the order in which it is told of them."""

    def __init__(self, world, folder):
        self.world, self.folder = world, folder
        self.log = f"{folder}/log.db"
        self.wrong = 0

    def open(self, *rms):
        """Opens these, by their names and those of their databases: what tx_open returned, and why it did."""
        pg, _ = c_programs.infos(self.world, "c-guards")
        with open(f"{self.folder}/settings", "w", encoding="utf-8") as it:
            it.write(f"program {self.world.coordinator}\nlog {self.log}\nname guards\npatience 60\n")
            for name, database in rms:
                info = pg.replace("dbname=postgres", f"dbname={database}")
                it.write(f"rm {name} {self.folder}/libgf_postgresql.so.1 gf_pg_switch {info}\n")
        environment = {**os.environ, "GARTERFOSSIL_SETTINGS": f"{self.folder}/settings", "LD_LIBRARY_PATH": self.folder}
        done = subprocess.run([f"{self.folder}/opens"], env=environment, stdout=subprocess.PIPE, stderr=subprocess.PIPE, text=True,
                              timeout=300, check=False)
        code, _, why = done.stdout.strip().partition(" ")
        return int(code or 1), why

    def note(self, story, is_right, found):
        self.wrong += not is_right
        print(f"{'ok   ' if is_right else 'WRONG'} C: {story}: {found}", flush=True)

    def see(self, story, rms, code, why="", starts=1):
        for _ in range(starts):
            found = self.open(*rms)
            self.note(story, found[0] == code and why in found[1], f"{found[0]} {found[1]}".strip())

    def keep(self, name):
        """Copies the log, as somebody does who keeps an older one."""
        for tail in ("", "-wal"):
            if os.path.exists(self.log + tail):
                shutil.copy(self.log + tail, f"{self.folder}/{name}{tail}")

    def put_back(self, name):
        for tail in ("", "-wal", "-shm"):
            if os.path.exists(self.log + tail):
                os.remove(self.log + tail)
            if os.path.exists(f"{self.folder}/{name}{tail}"):
                shutil.copy(f"{self.folder}/{name}{tail}", self.log + tail)


def run_others(program):
    """What the log refuses to be given for one start."""
    bank, stock = ("bank", "postgres"), ("stock", "template1")
    program.see("two databases", [bank, stock], OK)
    program.see("another one in the place of one", [("bank", "other"), stock], ERROR, "bank isn't the database that the log", starts=2)
    program.see("two that changed places", [("bank", "template1"), ("stock", "postgres")], ERROR, "That is the place of ", starts=2)
    program.see("each in its place again", [bank, stock], OK)
    program.keep("older")
    program.see("the log goes on", [bank, stock], OK, starts=2)
    program.keep("right")
    program.put_back("older")
    program.see("an older log", [bank, stock], FAIL, "it is older than", starts=3)
    program.put_back("nowhere")
    program.see("no log", [bank, stock], FAIL, "it is older than", starts=3)
    program.put_back("right")
    program.see("the right log", [bank, stock], OK)
    program.see("names that changed places", [("stock", "postgres"), ("bank", "template1")], FAIL, "is bank, not stock")


def run_more(program, connection):
    """One more database, while a branch of an old one is in doubt; and one that gets another name."""
    bank, stock, audit = ("bank", "postgres"), ("stock", "template1"), ("audit", "other")
    connection.run("BEGIN")
    connection.run("CREATE TABLE left_behind (id int)")
    connection.run(f"PREPARE TRANSACTION '7:{b'guards'.hex()}{1:016x}{1:016x}:{1:08x}{0:08x}'")
    program.see("one more database", [bank, stock, audit], OK)
    left = connection.run("SELECT count(*) FROM pg_prepared_xacts").rows[0][0]
    program.note("a branch in doubt of an old one is ended", int(left) == 0, left)
    program.see("another name in its place", [bank, stock, ("post", "other")], FAIL, "is audit, not post", starts=2)
    lender = ("lender", "postgres")
    program.see("another name that nobody has told the log", [lender, stock, audit], FAIL, "is bank, not lender", starts=2)
    words = [program.world.coordinator, "log", "--rename-rm", "bank", "lender", program.log]
    done = subprocess.run(words, stdout=subprocess.PIPE, stderr=subprocess.STDOUT, text=True, check=False)
    program.note("log --rename-rm", done.returncode == 0, done.stdout.strip())
    program.see("the other name", [lender, stock, audit], OK)
    program.see("the old one", [bank, stock, audit], FAIL, "is lender, not bank")


def run(world):
    """Prints each story. How many were wrong."""
    if not c_programs.is_over(world):
        print("guards: without C: its switches are for PostgreSQL and MariaDB")
        return 0
    try:
        with tempfile.TemporaryDirectory(dir=world.home) as folder:
            os.chmod(folder, 0o755)
            c_programs.built(folder, "opens")
            connection = world.databases()[0].connect()
            connection.run("CREATE DATABASE other")
            try:
                program = Program(world, folder)
                run_others(program)
                run_more(program, connection)
                return program.wrong
            finally:
                connection.run("DROP DATABASE other")
                connection.close()
    except Missing as missing:
        print(f"guards: without C: {missing}")
        return 0
