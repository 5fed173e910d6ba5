"""The driver that is killed: moves money between two databases, on several threads.

usage: bank.py HOME SECONDS THREADS [LOG [MIRROR]]

LOG is the path of a log, if it isn't the usual one, and MIRROR the number of the server in which it is mirrored.

Each outcome is written to HOME/told once it was told. One transfer of ten fails on purpose, and one of ten moves money within
one database. Ends with a line of JSON: how many there were of each kind, and the seconds."""

import collections
import json
import logging
import random
import sys
import threading
import time

from world import ACCOUNTS, World

from garterfossil import CoordinatorGone, HeuristicEnd, Outcome, XaError


class OnPurpose(Exception):
    """A transfer is to fail."""


def pay(branch, sign, amount):
    account = random.randrange(ACCOUNTS)
    branch.execute("UPDATE account SET balance = balance + %s WHERE id = %s", [sign * amount, account])


def between(t, key, fails):
    """Moves money from one database to the other."""
    amount = random.randint(1, 50)
    for rm, sign in ((0, -1), (1, 1)):
        pay(t[rm], sign, amount)
        t[rm].execute("INSERT INTO moved VALUES (%s, %s)", [key, amount])
    if fails:
        fail(t[random.randrange(2)])


def fail(branch):
    """An error of the program's own; or a statement that the database refuses, at once or as the branch is prepared, whether
    the program goes on behind it or not."""
    if random.random() < 0.3:
        raise OnPurpose
    try:
        branch.execute(random.choice(["INSERT INTO once VALUES (1)", "UPDATE account SET balance = -1000000000 WHERE id = 1"]))
    except XaError:
        raise
    except Exception as error:
        if random.random() < 0.5:
            raise OnPurpose from error


def within(t, key, rm):
    """Moves money within one database."""
    amount = random.randint(1, 50)
    for sign in (-1, 1):
        pay(t[rm], sign, amount)
    t[rm].execute("INSERT INTO alone VALUES (%s)", [key])


class Bank:
    def __init__(self, world, xa, until):
        self.xa = xa
        self.until = until
        self.counts = collections.Counter()
        self.lock = threading.Lock()
        self.told = open(f"{world.home}/told", "a", buffering=1)

    def work(self):
        while time.monotonic() < self.until:
            kind = random.choice(["0", "1"]) if random.random() < 0.1 else "both"
            t = error = None
            try:
                with self.xa.transaction() as t:
                    if kind == "both":
                        between(t, self.key(t), random.random() < 0.1)
                    else:
                        within(t, self.key(t), int(kind))
            except Exception as raised:
                error = raised
            self.note(t, kind, error)

    def key(self, t):
        """What the databases and the notes have of a transaction: others may have another one of this number."""
        return self.xa.name + t.gtrid

    def note(self, t, kind, error):
        end = "not begun" if t is None else t.outcome.value
        with self.lock:
            if t is not None and t.outcome in (Outcome.COMMITTED, Outcome.ROLLED_BACK):
                self.told.write(f"{self.key(t)} {kind} {end.replace(' ', '-')}\n")
            self.counts[end] += 1
            if isinstance(error, HeuristicEnd):
                logging.error("%s", error)
            if error is not None and not isinstance(error, OnPurpose):
                self.counts[f"raised {type(error).__name__}"] += 1
        if t is None:
            time.sleep(0.1)


def manager(world, threads, log=None, mirror=None):
    """The transaction manager, although the coordinator may be killed as it starts."""
    while True:
        try:
            return world.manager(threads, patience=20.0, log=log, mirror=mirror)
        except CoordinatorGone as gone:
            logging.warning("%s", gone)


def main():
    home, seconds, threads, *more = sys.argv[1:]
    log, mirror = (*more, None, None)[:2]
    run(World.found(home), float(seconds), int(threads), log, None if mirror is None else int(mirror))


def run(world, seconds, threads, log=None, mirror=None):
    """Moves money, and prints how it went."""
    logging.basicConfig(level=logging.WARNING, format="%(asctime)s %(message)s")
    begun = time.monotonic()
    with manager(world, threads, log, mirror) as xa:
        bank = Bank(world, xa, begun + seconds)
        workers = [threading.Thread(target=bank.work, daemon=True) for _ in range(threads)]
        for worker in workers:
            worker.start()
        for worker in workers:
            worker.join()
    bank.counts["seconds"] = round(time.monotonic() - begun, 1)
    print(json.dumps(bank.counts), flush=True)


if __name__ == "__main__":
    main()
