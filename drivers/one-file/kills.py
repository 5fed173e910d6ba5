"""Kills the coordinator, the driver in one file and both databases at random moments while money moves, and compares at the end what the
databases hold with what the driver told.

usage: kills.py --coordinator PROGRAM [--kills N] [--threads N] [--seed N]

It makes both servers in a temporary folder, on sockets, and removes them. Its last line says what is wrong; the status is 0 if nothing is."""

import argparse
import collections
import json
import os
import random
import shutil
import subprocess
import sys
import tempfile
import threading
import time
import uuid

HERE = os.path.dirname(os.path.realpath(__file__))
sys.path[:0] = [HERE, os.path.join(HERE, "../../drivers/databases")]
import conducted  # noqa: E402
from servers import MariaDBServer, PostgreSQLServer, own, processes_of  # noqa: E402

#: What is killed at a moment, and how often beside the others.
TARGETS = {"coordinator": 6, "driver": 6, "db0": 2, "db1": 2, "db0 db1": 1, "driver db0": 1, "driver db1": 1, "coordinator db0": 1}
ACCOUNTS, BALANCE = 20, 1000
ACCOUNT = "CREATE TABLE account (id int PRIMARY KEY, balance int NOT NULL)"
MOVED = "CREATE TABLE moved (name varchar(32) PRIMARY KEY, amount int NOT NULL)"


def options():
    parser = argparse.ArgumentParser(description=__doc__, formatter_class=argparse.RawDescriptionHelpFormatter)
    parser.add_argument("--coordinator", required=True)
    parser.add_argument("--kills", type=int, default=200)
    parser.add_argument("--threads", type=int, default=6)
    parser.add_argument("--seed", type=int, default=int(time.time()))
    parser.add_argument("--bank", help=argparse.SUPPRESS)
    return parser.parse_args()


def manager_of(settings):
    databases = [(conducted.PostgreSQL, settings["dsn"]), (conducted.MariaDB, settings["mariadb"])]
    return conducted.Manager(settings["program"], settings["log"], databases, settings["threads"])


def links_of(settings):
    return conducted.PostgreSQL(settings["dsn"], "look"), conducted.MariaDB(settings["mariadb"] | {"user": "root"}, "look")


def bank(settings):
    """Moves money for as long as it lives, and prints each outcome that it is told."""
    manager, lock = manager_of(settings), threading.Lock()

    def move(thread):
        rng = random.Random()
        while True:
            name, amount, fails = uuid.uuid4().hex, rng.randrange(1, 100), rng.random() < 0.1

            def work(links, name=name, amount=amount, fails=fails):
                for link, sign in zip(links, (-1, 1)):
                    link.run("UPDATE account SET balance = balance + %s WHERE id = %s", sign * amount, rng.randrange(ACCOUNTS))
                    link.run("INSERT INTO moved VALUES (%s, %s)", name, sign * amount)
                if fails:
                    raise ValueError("the user changes his mind")

            outcome = manager.run(thread, work)
            with lock:
                print(json.dumps([name, outcome]), flush=True)

    threads = [threading.Thread(target=move, args=[thread]) for thread in range(1, settings["threads"] + 1)]
    for thread in threads:
        thread.start()
    for thread in threads:
        thread.join()


class Driver:
    """The bank's process, which is started again whenever it ends."""

    def __init__(self, settings, home):
        self.words = [sys.executable, os.path.realpath(__file__), "--coordinator", settings["program"], "--bank", json.dumps(settings)]
        self.home, self.by_itself = home, 0
        self.start()

    def start(self):
        with open(f"{self.home}/told", "ab") as told, open(f"{self.home}/errors", "ab") as errors:
            self.process = subprocess.Popen(self.words, stdout=told, stderr=errors)

    def see(self):
        if self.process.poll() is not None:
            self.by_itself += 1
            self.start()

    def kill(self):
        self.process.kill()
        self.process.wait()

    def told(self):
        """What it was told of each transfer. A line that it hadn't written whole as it was killed tells nothing, nor what stands after it."""
        with open(f"{self.home}/told", encoding="utf-8") as it:
            return dict(json.loads(line) for line in it if line.endswith("\n") and line.count("[") == 1)


def kill_all(given, rng, driver, servers):
    """What was killed, and how often."""
    done = collections.Counter()
    time.sleep(3)
    for _ in range(given.kills):
        time.sleep(rng.uniform(0.1, 1.5))
        driver.see()
        targets = rng.choices(list(TARGETS), list(TARGETS.values()))[0].split()
        for what in targets:
            done[what] += 1
            if what == "driver":
                driver.kill()
                driver.start()
            elif what == "coordinator":
                for number in processes_of(driver.process.pid)[1:]:
                    os.kill(number, 9)
            else:
                servers[what].kill()
        time.sleep(rng.uniform(0, 0.5))
        for what in targets:
            if what in servers:
                servers[what].start()
    time.sleep(3)
    driver.kill()
    return done


def compare(settings, told):
    """What is wrong, and what there is, after the last recovery."""
    manager = manager_of(settings)
    time.sleep(1)
    due = manager.coordinator.ask("due")
    links = links_of(settings)
    moved = [dict(link.run("SELECT name, amount FROM moved")) for link in links]
    sums = [int(link.run("SELECT SUM(balance) FROM account")[0][0]) for link in links]
    doubt = [len(link.listed()) for link in links]
    wrong = [f"{name} was told {outcome}" for name, outcome in told.items()
             if not outcome.startswith("unknown") and outcome.startswith("committed") != (name in moved[0])]
    if set(moved[0]) != set(moved[1]):
        wrong.append(f"{len(set(moved[0]) ^ set(moved[1]))} transfers are at one database alone")
    if sums != [ACCOUNTS * BALANCE + sum(amounts.values()) for amounts in moved] or sum(sums) != 2 * ACCOUNTS * BALANCE:
        wrong.append(f"the sums: {sums}")
    if any(doubt) or due != "due":
        wrong.append(f"in doubt: {doubt}, {due}")
    manager.coordinator.ask("quit")
    return wrong, len(moved[0])


def run(given, home, servers):
    for server in servers.values():
        server.start()
    settings = {
        "program": os.path.realpath(given.coordinator), "log": f"{home}/decisions.db", "threads": given.threads,
        "dsn": f"host={servers['db0'].home} user=xa dbname=postgres",
        "mariadb": {"unix_socket": servers["db1"].socket(), "user": "bank", "database": "bank"},
    }
    for link, engine in zip(links_of(settings), ("", " ENGINE=InnoDB")):
        link.run(ACCOUNT + engine)
        link.run(MOVED + engine)
        for number in range(ACCOUNTS):
            link.run("INSERT INTO account VALUES (%s, %s)", number, BALANCE)
        link.link.close()
    driver, begun = Driver(settings, home), time.monotonic()
    done = kill_all(given, random.Random(given.seed), driver, servers)
    told = driver.told()
    wrong, moved = compare(settings, told)
    kinds = collections.Counter(" ".join(word for word in outcome.split() if not word.isdigit()) for outcome in told.values())
    print(f"{given.kills} kills in {time.monotonic() - begun:.0f} s, seed {given.seed}: {dict(done)}; ended by itself {driver.by_itself};"
          f" {moved} transfers moved money; told: {dict(kinds)}")
    print(f"{len(wrong)} wrong {wrong[:10]}")
    return bool(wrong or driver.by_itself)


def main():
    given = options()
    if given.bank:
        bank(json.loads(given.bank))
        return 0
    home = tempfile.mkdtemp(prefix="conducted")
    own(home)
    os.chmod(home, 0o755)
    servers = {"db0": PostgreSQLServer(home, "db0"), "db1": MariaDBServer(home, "db1")}
    try:
        return run(given, home, servers)
    finally:
        for server in servers.values():
            server.stop()
        shutil.rmtree(home, ignore_errors=True)


if __name__ == "__main__":
    sys.exit(main())
