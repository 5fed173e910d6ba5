"""A machine that dies: the folder with the log is deleted in the middle of transfers, and from the mirror in a database a new log is
made, in another folder, over which the next run goes on. By the driver in Python, and by that in Java."""

import os
import random
import shutil
import signal
import subprocess
import sys
import tempfile
import time

from broker import QUICK
from jdbc import compiled, driver_of, paths_of
from servers import Missing, free_port, processes_of
from services import await_coordinator, found_wrong, see_apart
from world import HERE, TOP

#: What a failover says before the first session has told the mirror of itself: nothing was begun, and a new log is right.
NOTHING = "there is no log to be made"


class Machine:
    """A folder, and the program in it that moves money."""

    #: For how many seconds it lives once it has its coordinator: some of that is recovery.
    LIFE = 0.0, 2.0

    def __init__(self, world, number, mirror):
        self.world, self.mirror = world, mirror
        self.home = f"{world.home}/machine-{number}"
        self.process = None
        os.mkdir(self.home)

    @property
    def log(self):
        return f"{self.home}/decisions.db"

    def words(self, seconds):
        """The program that moves money."""
        return [sys.executable, f"{HERE}/bank.py", self.world.home, str(seconds), "4", self.log, str(self.mirror)]

    def start(self, seconds=86400):
        with open(f"{self.world.home}/machines.log", "a") as it:
            self.process = subprocess.Popen(self.words(seconds), stdout=subprocess.PIPE, stderr=it)

    def await_begun(self):
        await_coordinator(self.process.pid)

    def die(self):
        """Whether it was still at work. Nothing of it is left."""
        was_alive = self.process.poll() is None
        for number in processes_of(self.process.pid):
            try:
                os.kill(number, signal.SIGKILL)
            except ProcessLookupError:
                pass
        self.process.wait()
        self.process.stdout.close()
        shutil.rmtree(self.home)
        return was_alive

    def take_over(self):
        """Makes the log from the mirror. What it says."""
        path = f"{self.home}/bank.toml"
        servers = self.world.servers
        kinds = {"PostgreSQLServer": "postgresql", "MariaDBServer": "mariadb"}

        def table(head, server):
            return f'[{head}]\nkind = "{kinds[type(server).__name__]}"\n{server.in_toml()}\n'

        with open(path, "w") as it:
            it.write(f'log = "decisions.db"\nprogram = "{self.world.coordinator}"\n')
            it.write("".join(table("[database]", server) for server in servers) + table("mirror", servers[self.mirror]))
        environment = {**os.environ, "PYTHONPATH": os.path.join(TOP, "drivers", "python")}
        words = [sys.executable, "-m", "garterfossil", "failover", "--config", path]
        return subprocess.run(words, capture_output=True, text=True, env=environment, check=False)


class JavaMachine(Machine):
    """The same, with a program in Java over drivers/java."""

    path = []

    @property
    def log(self):
        """Of a name of its own: the mirror still knows the managers of those before."""
        return f"{self.home}/java.db"

    def java(self, name, *words):
        return ["java", *QUICK, "-cp", ":".join(self.path), name, *words]

    def words(self, seconds):
        urls = [server.url() for server in self.world.servers]
        return self.java("Bank", self.world.home, self.world.coordinator, str(seconds), "4", *urls, "-", self.log, urls[self.mirror])

    def await_begun(self):
        """Waits until it has seen the second database: a start of Java takes longer than one of the coordinator."""
        until = time.monotonic() + 60
        while time.monotonic() < until and self.process.poll() is None:
            try:
                with open(f"{self.log}-databases") as it:
                    if '"number": 1' in it.read():
                        return
            except FileNotFoundError:
                pass
            time.sleep(0.02)

    def take_over(self):
        path = f"{self.home}/bank.properties"
        kinds = {"PostgreSQLServer": "org.postgresql.ds.PGSimpleDataSource", "MariaDBServer": "org.mariadb.jdbc.MariaDbDataSource"}
        server = self.world.servers[self.mirror]
        with open(path, "w") as it:
            it.write(f"log = {self.log}\nprogram = {self.world.coordinator}\n")
            it.write(f"mirror.class = {kinds[type(server).__name__]}\nmirror.url = {server.url()}\n")
        return subprocess.run(self.java("garterfossil.Command", "failover", path), capture_output=True, text=True, check=False)


def run_java(world, machines, seed):
    """The same as run, by Java. How much was wrong."""
    folder = tempfile.mkdtemp(dir=world.home)
    os.chmod(folder, 0o755)
    try:
        JavaMachine.path = [folder, *paths_of(dict(driver_of(server) for server in world.servers)), *compiled(folder, ["Bank", "Drain", "Speed"])]
    except Missing as missing:
        print(f"machines: without Java: {missing}")
        return 0
    for server in world.servers:
        server.restart(free_port())
    try:
        return run(world, machines, seed, JavaMachine)
    finally:
        for server in world.servers:
            server.restart(None)


def run(world, machines, seed, kind=Machine):
    """So many machines, one after the other, each of which dies. How much was wrong."""
    world.prepare()
    begun, rng, failed, decided = time.monotonic(), random.Random(seed), 0, 0
    for mirror in (0, 1):
        has_begun = False
        for number in range(machines // 2):
            machine = kind(world, f"{mirror}-{number}", mirror)
            done = machine.take_over()
            if done.returncode == 0:
                has_begun = True
                decided += int(done.stdout.rpartition(" decisions")[0].split()[-1])
            elif has_begun or NOTHING not in done.stderr:
                print(f"machines: {done.stdout}{done.stderr}", file=sys.stderr)
                return 1
            machine.start()
            machine.await_begun()
            time.sleep(rng.uniform(*kind.LIFE))
            failed += not machine.die()
        # One more, to the end.
        machine = kind(world, f"{mirror}-last", mirror)
        failed += has_begun and machine.take_over().returncode != 0
        machine.start(seconds=2)
        machine.process.communicate(timeout=300)
        failed += machine.process.returncode != 0
        shutil.rmtree(machine.home)
    print(f"machines: {machines} of them, {kind.__name__}, died in {time.monotonic() - begun:.0f} seconds, seed {seed}; {decided} decisions were in the mirror as they did")
    with open(f"{world.home}/machines.log") as it:
        unexplained = see_apart(world, [it.read()])
    return found_wrong("machines", world, unexplained, failed)
