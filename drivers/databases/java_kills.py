"""Kills (SIGKILL) the coordinator, the program in Java over drivers/java, the databases and the broker at random moments, while
money and orders move; starts again what was killed; and compares at the end what they hold, and what the program was told."""

import collections
import os
import random
import shutil
import subprocess
import sys
import tempfile
import time

import kills
from broker import QUICK, BrokerServer
from jdbc import compiled, driver_of, paths_of
from servers import Missing, free_port
from world import SUM

#: What is killed together, and how often.
TARGETS = {"coordinator": 6, "driver": 4, "db0": 3, "db1": 3, "broker": 4, "db0 db1": 1, "driver db0": 1, "driver broker": 1, "coordinator broker": 1}
#: From one kill to the next, in seconds: a start of Java takes one.
PAUSE = 0.3, 2.5


class JavaKills(kills.Kills):
    def __init__(self, world, broker, path, threads, rng):
        super().__init__(world, threads, rng)
        self.broker, self.path = broker, path
        self.servers[broker.name] = broker

    def java(self, name, *words):
        return ["java", *QUICK, "-cp", ":".join(self.path), name, *words]

    def start_driver(self, seconds=86400):
        urls = [server.url() for server in [*self.world.servers, self.broker]]
        with open(f"{self.world.home}/driver.log", "a") as it:
            words = self.java("Bank", self.world.home, self.world.coordinator, str(seconds), str(self.threads), *urls)
            self.driver = subprocess.Popen(words, stdout=subprocess.PIPE, stderr=it)

    def kill_one(self):
        targets = self.rng.choices(list(TARGETS), list(TARGETS.values()))[0].split()
        for what in targets:
            self.done[what] += self.kill(what)
        if "driver" in targets:
            self.start_driver()
        for what in targets:
            if what in self.servers:
                time.sleep(self.rng.uniform(0, 0.7))
                self.servers[what].start()

    def refused(self):
        """How often the coordinator was ended since it, or the driver, said what the other didn't expect, by the driver's notes."""
        with open(f"{self.world.home}/driver.log") as it:
            found = [line for line in it if "an error of the driver" in line or "its memory failed" in line]
        if found:
            kept = tempfile.mkdtemp(prefix="xatm-refused-")
            shutil.copy(f"{self.world.home}/driver.log", kept)
            print(f"java: what the driver logged is kept in {kept}: {found[0].strip()}")
        return len(found)

    def run(self, count):
        self.start_driver()
        while sum(self.done.values()) < count:
            time.sleep(self.rng.uniform(*PAUSE))
            self.see_driver()
            self.kill_one()
            if sum(self.done.values()) % 50 == 0:
                print(f"  {sum(self.done.values())} kills", file=sys.stderr, flush=True)
        self.kill("driver")
        # One more life, to its end.
        self.start_driver(seconds=5)
        out, _ = self.driver.communicate(timeout=300)
        if self.driver.returncode != 0:
            self.note_failure()
        self.counts["last"] = out.decode().strip()


def drained(it):
    """What the broker holds: the number of prepared branches, and the orders."""
    out = subprocess.run(it.java("Drain", it.broker.url()), stdout=subprocess.PIPE, text=True, check=True).stdout.split("\n")
    return int(out[0]), [line.split()[0] for line in out[1:] if line]


def orders(it, sent, taken):
    """Compares the orders that were sent with those that were taken and those in the queue. A count of each kind."""
    prepared, queue = drained(it)
    missing = sent - set(taken) - set(queue)
    hidden = 0
    if missing:
        # A broker that was killed may hide messages until its index is made anew from its journal.
        it.broker.kill()
        for name in ("db.data", "db.redo"):
            if os.path.exists(f"{it.broker.home}/store/{name}"):
                os.remove(f"{it.broker.home}/store/{name}")
        it.broker.start()
        found = drained(it)[1]
        hidden = len(missing & set(found))
        queue += found
        missing -= set(found)
    nowhere = (set(taken) | set(queue)) - sent
    if missing:
        kept = tempfile.mkdtemp(prefix="xatm-lost-")
        shutil.copytree(it.broker.home, f"{kept}/broker")
        shutil.copy(f"{it.world.home}/driver.log", kept)
        print(f"java: the broker's store and what the driver logged are kept in {kept}")
    for order in missing | nowhere:
        print(f"java: order {order} is", "lost" if order in missing else "from nowhere")
    twice = len(taken) + len(queue) - len(set(taken) | set(queue))
    return {
        "orders sent": len(sent),
        "orders taken": len(taken),
        "orders in the queue": len(queue),
        "orders that the broker hid until its index was made anew": hidden,
        "orders lost, or from nowhere": len(missing) + len(nowhere),
        "orders twice": twice,
        "in doubt at the broker": prepared,
    }


def rows(database, query):
    connection = database.connect()
    found = connection.run(query).rows
    connection.close()
    return found


def look(world, it):
    """Compares what the databases and the broker hold, and what was told. A count of each kind, and what must be none."""
    databases = world.databases()
    moved = [dict(rows(database, "SELECT gtrid, amount FROM moved")) for database in databases]
    alone = [{gtrid for gtrid, in rows(database, "SELECT gtrid FROM alone")} for database in databases]
    sent, taken = ([gtrid for gtrid, in rows(databases[rm], f"SELECT gtrid FROM {table}")] for rm, table in ((0, "sent"), (1, "taken")))
    left, right = moved
    holds = {"both": [left, right], "0": [alone[0]], "1": [alone[1]], "send": [set(sent)]}
    told = world.told()
    wrong = sum([gtrid in it for it in holds[kind]] != [end == "committed"] * len(holds[kind]) for gtrid, (kind, end) in told.items() if kind in holds)
    sums = sum(int(rows(database, "SELECT SUM(balance) FROM account")[0][0]) for database in databases)
    # The money of orders that are on their way is on no account.
    amounts = [int(rows(databases[rm], f"SELECT COALESCE(SUM(amount), 0) FROM {table}")[0][0]) for rm, table in ((0, "sent"), (1, "taken"))]
    bad = {
        "in one and not the other, or different": len({g for g in left.keys() | right.keys() if left.get(g) != right.get(g)}),
        "told, and otherwise in the databases": wrong,
        "in doubt": sum(len(rows(database, server.DOUBT)) for database, server in zip(databases, world.servers)),
        "of the sum missing": SUM - sums - amounts[0] + amounts[1],
    }
    good = {"transfers in both": len(left.keys() & right.keys()), "in one alone": len(alone[0]) + len(alone[1]), "outcomes told": len(told)}
    found = orders(it, set(sent), taken)
    for name in ("orders lost, or from nowhere", "orders twice", "in doubt at the broker"):
        bad[name] = found.pop(name)
    good.update(found)
    return good, bad


def prepare(world):
    world.prepare()
    for rm, table in ((0, "sent"), (1, "taken")):
        database = world.databases()[rm]
        rows(database, f"DROP TABLE IF EXISTS {table}")
        rows(database, f"CREATE TABLE {table} (gtrid char(32) PRIMARY KEY, amount bigint)")


def run(world, count, threads, seed):
    """Prints the figures. How much was wrong."""
    folder = tempfile.mkdtemp(dir=world.home)
    os.chmod(folder, 0o755)
    try:
        path = [folder, *paths_of(dict(driver_of(server) for server in world.servers)), *compiled(folder, ["Bank", "Drain", "Broker", "Speed"])]
    except Missing as missing:
        print(f"java: left out: {missing}")
        return 0
    prepare(world)
    for server in world.servers:
        server.restart(free_port())
    broker = BrokerServer(world.home, "broker", path)
    broker.start()
    begun = time.monotonic()
    it = JavaKills(world, broker, path, threads, random.Random(seed))
    try:
        it.run(count)
        good, bad = look(world, it)
    finally:
        if it.driver is not None and it.driver.poll() is None:
            it.driver.kill()
            it.driver.wait()
        broker.stop()
        for server in world.servers:
            server.restart(None)
        shutil.rmtree(folder)
    print(f"java: {sum(it.done.values())} kills in {time.monotonic() - begun:.0f} seconds, seed {seed}:", dict(sorted(it.done.items())))
    for name, number in {**good, **bad}.items():
        print(f"java: {number} {name}")
    refused = it.refused()
    print(f"java: {refused} moves that the coordinator didn't take, or replies that the driver didn't")
    print(f"java: {it.failed} programs that failed otherwise; the last one: {it.counts['last']}")
    return sum(abs(number) for number in bad.values()) + it.failed + refused
