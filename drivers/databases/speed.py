"""Transfers a second through the coordinator, beside the same transfers without one: the same statements, each database told
to prepare and to commit, and nobody who would know how to go on after a crash."""

import functools
import itertools
import random
import statistics
import threading
import time

import c_speed
import delay
import jdbc
from servers import Missing
from world import ACCOUNTS

from garterfossil import Xid

THREADS = [1, 4, 8]
ROUNDS = 3


def move(branches, name, accounts):
    """The work of a transfer, between accounts that no other thread uses: nobody waits for a lock."""
    amount = random.randint(1, 50)
    for branch, sign in zip(branches, (-1, 1)):
        branch.execute("UPDATE account SET balance = balance + %s WHERE id = %s", [sign * amount, random.choice(accounts)])
        branch.execute("INSERT INTO moved VALUES (%s, %s)", [name, amount])


def through_the_coordinator(xa, accounts, until):
    """Transfers by one thread: how many."""
    count = 0
    while time.monotonic() < until:
        with xa.transaction() as t:
            move([t[0], t[1]], t.gtrid, accounts)
        count += 1
    return count


def by_hand(databases, numbers, accounts, until):
    """The same without a coordinator."""
    connections = [database.connect() for database in databases]
    count = 0
    while time.monotonic() < until:
        # Another incarnation than any of the coordinator's.
        gtrid = f"{0x7FFFFFFF:016x}{next(numbers):016x}"
        xids = [Xid.parse(f"7:{gtrid}:{rm:016x}") for rm in range(2)]
        for connection, xid in zip(connections, xids):
            connection.do("start", xid)
        move(connections, gtrid, accounts)
        for verb in ("prepare", "commit"):
            for connection, xid in zip(connections, xids):
                connection.do(verb, xid)
        count += 1
    for connection in connections:
        connection.close()
    return count


def per_second(work, threads, seconds):
    """Runs work on so many threads at once."""
    counts, faults = [], []
    begun = time.monotonic()

    def one(accounts):
        try:
            counts.append(work(accounts, begun + seconds))
        except Exception as fault:
            faults.append(fault)

    workers = [threading.Thread(target=one, args=[range(number, ACCOUNTS, threads)]) for number in range(threads)]
    for worker in workers:
        worker.start()
    for worker in workers:
        worker.join()
    if faults:
        raise faults[0]
    return sum(counts) / (time.monotonic() - begun)


def run_python(world, seconds, threads):
    """Prints the figures, by turns one way and the other."""
    world.prepare()
    numbers = itertools.count(random.randrange(1 << 40))
    for number in threads:
        rates, rates_by_hand = [], []
        with world.manager(number) as xa:
            for _ in range(ROUNDS):
                rates.append(per_second(functools.partial(through_the_coordinator, xa), number, seconds))
                rates_by_hand.append(per_second(functools.partial(by_hand, world.databases(), numbers), number, seconds))
        rate, hand = statistics.median(rates), statistics.median(rates_by_hand)
        print(f"speed: Python, {number} threads{world.network}: {rate:.0f} transfers a second; {hand:.0f} by hand: {rate / hand:.2f} of that",
              flush=True)


def run_c(world, seconds, threads):
    """The same of C."""
    world.prepare()
    c_speed.run(world, seconds, ROUNDS, threads)


def run_java(world, seconds, threads):
    """The same of Java."""
    jdbc.run(world, seconds, ROUNDS, threads)


#: What the parts measure: each with its numbers of threads.
LANGUAGES = {"python-speed": (run_python, THREADS), "c-speed": (run_c, THREADS), "java-speed": (run_java, jdbc.THREADS)}


def run_here(world, part, seconds, threads):
    for language in LANGUAGES if part == "speed" else [part]:
        measure, usual = LANGUAGES[language]
        measure(world, seconds, threads or usual)


def run(world, part, given):
    """Measures what a part names, in the languages that it is of, over a network if one is asked for. How much was wrong of the network."""
    if not given.delay:
        run_here(world, part, given.seconds, given.threads)
        return 0
    try:
        with delay.network(world, given.delay) as far:
            wrong = delay.see(world, far, given.delay)
            run_here(far, part, given.seconds, given.threads)
            return wrong
    except Missing as missing:
        print(f"speed: not over a network: {missing}")
        return 0
