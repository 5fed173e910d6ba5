"""Stories from Java over both databases: those of java/Tour.java; the program of drivers/java/examples, which was written against
Bitronix, over Bitronix and over drivers/java; and the command, over what a program left that was killed."""

import os
import shutil
import subprocess
import tempfile

from broker import BrokerServer
from jdbc import ACTIVEMQ, BITRONIX, HIBERNATE, compiled, driver_of, paths_of
from servers import MariaDBServer, Missing, PostgreSQLServer, free_port, processes_of
from world import TOP

EXAMPLES = f"{TOP}/drivers/java/examples"


def balances(world):
    found = []
    for database in world.databases():
        connection = database.connect()
        found.append(int(connection.run("SELECT balance FROM account WHERE id = 1").rows[0][0]))
        connection.close()
    return found


def see_set_ups(world, folder, path):
    """The same program over each set-up: 2 of 3 transfers are committed, of 30 together. How many were wrong."""
    names = ["Transfers", "GarterfossilSetUp"]
    try:
        path = path + paths_of(BITRONIX)
        names.append("BitronixSetUp")
    except Missing as missing:
        print(f"tour: without Bitronix: {missing}")
    subprocess.run(["javac", "-cp", ":".join(path), "-d", folder, *(f"{EXAMPLES}/{name}.java" for name in names)], check=True)
    wrong = 0
    for name in names[1:]:
        before = balances(world)
        words = ["java", "-cp", ":".join(path), "Transfers", name, *(server.url() for server in world.servers), folder, world.coordinator]
        it = subprocess.run(words, stdout=subprocess.PIPE, stderr=subprocess.DEVNULL, text=True)
        moved = [now - old for now, old in zip(balances(world), before)]
        is_right = it.returncode == 0 and moved == [-30, 30] and it.stdout.strip().endswith("2 of 3 committed")
        wrong += not is_right
        print(f"{'ok   ' if is_right else 'WRONG'} Java: a program written against Bitronix, by {name}: {it.stdout.strip()}, {moved}", flush=True)
    return wrong


class Halted:
    """What a program left that was killed once its first database had committed, and the command over it."""

    KINDS = {PostgreSQLServer: ("xa.PGXADataSource", "ds.PGSimpleDataSource"), MariaDBServer: ("MariaDbDataSource",) * 2}

    def __init__(self, world, folder, path, token, mirror=None):
        self.world, self.token, self.log = world, token, f"{folder}/{token}.db"
        self.java = ["java", "-cp", ":".join(path)]
        servers = world.servers if mirror is None else [*world.servers, world.servers[mirror]]
        urls = [server.url() for server in servers]
        words = [*self.java, "Halt", self.log, world.coordinator, *urls[:2], token, *urls[2:]]
        self.status = subprocess.run(words, stderr=subprocess.DEVNULL).returncode
        lines = [f"log = {self.log}", f"program = {world.coordinator}"]
        for place, (server, url) in enumerate(zip(servers, urls)):
            package = "org.postgresql." if isinstance(server, PostgreSQLServer) else "org.mariadb.jdbc."
            name = f"resource.db{place}" if place < 2 else "mirror"
            lines += [f"{name}.class = {package}{self.KINDS[type(server)][place == 2]}", f"{name}.url = {url}"]
        self.file = f"{folder}/{token}.properties"
        with open(self.file, "w") as it:
            it.write("\n".join(lines) + "\n")

    def command(self, *words):
        words = [*self.java, "garterfossil.Command", words[0], self.file, *words[1:]]
        done = subprocess.run(words, stdout=subprocess.PIPE, stderr=subprocess.DEVNULL, text=True)
        return done.returncode, done.stdout

    def held(self):
        """How many rows each database has of it."""
        return rows_of(self.world, self.token)


def rows_of(world, token):
    """How many rows each database has of a token."""
    return [len(one.connect().run(f"SELECT gtrid FROM alone WHERE gtrid = '{token}'").rows) for one in world.databases()]


def see_grown(world, folder, path):
    """A log that was made with one database gets another, which then has another name. How much was wrong."""
    log, java, (first, second) = f"{folder}/grown.db", ["java", "-cp", ":".join(path)], [server.url() for server in world.servers]

    def said(token, *resources):
        words = [*java, "Grow", log, world.coordinator, token, *resources]
        return subprocess.run(words, stdout=subprocess.PIPE, stderr=subprocess.DEVNULL, text=True).stdout.strip()

    found = [said("one", "db0", first)]
    # It is added by a program that is killed once the first has committed.
    Halted(world, folder, path, "grown")
    found += [said("two", "db0", first, "db1", second), *map(str, [rows_of(world, "grown"), rows_of(world, "two")])]
    found.append(said("three", "db0", first, "shop", second))
    renamed = subprocess.run([world.coordinator, "log", "--rename-rm", "db1", "shop", log], stderr=subprocess.DEVNULL).returncode
    found.append(said("four", "db0", first, "shop", second))
    is_right = found[:4] == ["committed", "committed", "[1, 1]", "[1, 1]"] and "shop isn't one of them" in found[4] and found[5] == "committed"
    is_right &= renamed == 0 and rows_of(world, "three") == [0, 0] and rows_of(world, "four") == [1, 1]
    print(f"{'ok   ' if is_right else 'WRONG'} Java: a database is added to a log, and renamed: {found[:4]}", flush=True)
    if not is_right:
        print(found, renamed)
    return not is_right


def see_failover(world, folder, path, mirror):
    """The log is lost after a decision, and made anew of the mirror: what is prepared is committed. How much was wrong."""
    halted = Halted(world, folder, path, f"lost{mirror}", mirror)
    for name in os.listdir(folder):
        if name.startswith(f"lost{mirror}.db"):
            os.remove(f"{folder}/{name}")
    early, _ = halted.command("recover")
    made, said = halted.command("failover")
    over, _ = halted.command("recover")
    found = [halted.status, early, made, over, halted.held()]
    is_right = found == [9, 2, 0, 0, [1, 1]] and said.endswith("made, with 1 decisions to commit\n")
    print(f"{'ok   ' if is_right else 'WRONG'} Java: a log is made of the mirror in database {mirror}: {found}", flush=True)
    return not is_right


def see_command(world, folder, path):
    """A branch that is decided to commit is shown, ended by hand as the log says, and its row leaves. How much was wrong."""
    halted = Halted(world, folder, path, "halted")
    command = halted.command
    status, said = command("status")
    branch = next((line.split(": waits")[0].strip() for line in said.splitlines() if "waits for xa_commit" in line), "none")
    ended, told = command("end", branch, "--yes")
    left, rest = command("status")
    over, last = command("recover")
    found = [halted.status, status, ended, left, over, halted.held()]
    is_right = found == [9, 1, 0, 0, 0, [1, 1]]
    is_right &= "COMMIT" in said and told.endswith("it is ended\n") and "1 of the decisions have no branch any more" in rest and ": 0 decided" in last
    print(f"{'ok   ' if is_right else 'WRONG'} Java: a branch is ended by hand: {found}", flush=True)
    if not is_right:
        print(said, told, rest, last)
    return not is_right


def see_broker(world, path):
    """A branch that a broker's crash left is ended while messages come: none of them is lost in another crash. How much was wrong."""
    broker = BrokerServer(world.home, "broker", path)

    def said(*words):
        # On a busy machine a broker that was killed may take long to greet its first client.
        for _ in range(5):
            done = subprocess.run(["java", "-cp", ":".join(path), *words, broker.url()], stdout=subprocess.PIPE, stderr=subprocess.DEVNULL, text=True)
            if done.returncode == 0:
                break
        return done.stdout.split()

    broker.start()
    try:
        found = []
        for phase in ("prepare", "end"):
            found = said("Leftover", phase)
            broker.kill()
            broker.start()
        held = [*found, *said("Drain")[1:]]
    finally:
        broker.stop()
    sent = ["left", *(f"before{number}" for number in range(5)), *(f"after{number}" for number in range(30))]
    is_right = sorted(held) == sorted(sent)
    print(f"{'ok   ' if is_right else 'WRONG'} Java: a branch that a broker's crash left is ended: of 36 messages {len(held)} are there", flush=True)
    return not is_right


def see_hibernate(world, folder, path):
    """What Hibernate's sessions hold is written as the transaction is committed, also after one that a time-out rolled back. How much was
    wrong."""
    words = ["java", "-cp", ":".join(path), "Persist", f"{folder}/persist.db", world.coordinator, *(server.url() for server in world.servers), "it"]
    with open(f"{world.home}/driver.log", "a") as log:
        said = subprocess.run(words, stdout=subprocess.PIPE, stderr=log, text=True).stdout.split("\n")[:-1]
    held = [rows_of(world, f"it-{name}") for name in ("committed", "undone", "late", "next")]
    is_right = said == ["rolled back", "committed"] and held == [[1, 1], [0, 0], [0, 0], [1, 1]]
    print(f"{'ok   ' if is_right else 'WRONG'} Java: Hibernate's sessions are written with the transaction: {held}", flush=True)
    return not is_right


def run(world):
    """Prints each story. How many were wrong."""
    if {type(server) for server in world.servers} != {PostgreSQLServer, MariaDBServer}:
        print("tour: without Java: its stories are over PostgreSQL and MariaDB")
        return 0
    folder = tempfile.mkdtemp(dir=world.home)
    os.chmod(folder, 0o755)
    names = ["Tour", "Grow", "Halt", "Hooks", "Speed"]
    for needed, more, what in ((ACTIVEMQ, ["Broker", "Drain", "Leftover"], "a broker"), (HIBERNATE, ["Persist"], "Hibernate")):
        try:
            paths_of(needed)
            names += more
        except Missing as missing:
            print(f"tour: without {what}: {missing}")
    try:
        path = [folder, *paths_of(dict(driver_of(server) for server in world.servers)), *compiled(folder, names)]
    except Missing as missing:
        print(f"tour: without Java: {missing}")
        return 0
    world.prepare()
    for server in world.servers:
        server.restart(free_port())
    try:
        urls = [server.url() for server in world.servers]
        with open(f"{world.home}/driver.log", "a") as log:
            processes = ",".join(str(number) for number in processes_of(world.servers[1].process.pid))
            words = ["java", "-cp", ":".join(path), "Tour", folder, world.coordinator, *urls, processes]
            wrong = subprocess.run(words, stderr=log).returncode != 0
        wrong += see_set_ups(world, folder, path) + see_command(world, folder, path) + see_grown(world, folder, path)
        wrong += see_broker(world, path) if "Broker" in names else 0
        wrong += see_hibernate(world, folder, path) if "Persist" in names else 0
        return wrong + sum(see_failover(world, folder, path, mirror) for mirror in (0, 1))
    finally:
        for server in world.servers:
            server.restart(None)
        shutil.rmtree(folder)
