"""Kills (SIGKILL) the coordinator, the driver and the databases at random moments, while money moves; starts again what was
killed; and compares at the end what the two databases hold, and what the driver was told."""

import collections
import json
import os
import random
import signal
import subprocess
import sys
import time

from servers import processes_of
from world import HERE, SUM

#: What is killed together, and how often.
TARGETS = {"coordinator": 6, "driver": 6, "db0": 2, "db1": 2, "db0 db1": 1, "driver db0": 1, "driver db1": 1, "coordinator db0": 1}
#: From one kill to the next, in seconds.
PAUSE = 0.05, 0.8


class Kills:
    def __init__(self, world, threads, rng):
        self.world, self.threads, self.rng = world, threads, rng
        self.servers = {server.name: server for server in world.servers}
        self.done = collections.Counter()
        self.counts = collections.Counter()
        self.failed = 0
        self.driver = None

    def start_driver(self, seconds=86400):
        with open(f"{self.world.home}/driver.log", "a") as it:
            self.driver = subprocess.Popen(
                [sys.executable, f"{HERE}/bank.py", self.world.home, str(seconds), str(self.threads)], stdout=subprocess.PIPE, stderr=it
            )

    def see_driver(self):
        """A driver that ended by itself failed: it is started again."""
        if self.driver.poll() is not None:
            self.note_failure()
            self.driver.stdout.close()
            self.start_driver()

    def unexplained(self):
        """How many branches somebody else has ended, by the drivers' notes. (MariaDB forgets in a crash a branch that only read.)"""
        with open(f"{self.world.home}/driver.log") as it:
            return sum("ended it by hand" in line for line in it)

    def note_failure(self):
        self.failed += 1
        with open(f"{self.world.home}/driver.log") as it:
            print("kills: a driver failed:", "".join(it.readlines()[-20:]), file=sys.stderr)

    def kill(self, what):
        """Kills something. False if it isn't there at this moment."""
        if what == "driver":
            self.driver.kill()
            self.driver.wait()
            self.driver.stdout.close()
            return True
        if what in self.servers:
            self.servers[what].kill()
            return True
        # The coordinator is the one process that the driver starts.
        found = processes_of(self.driver.pid)[1:]
        for number in found:
            try:
                os.kill(number, signal.SIGKILL)
            except ProcessLookupError:
                return False
        return bool(found)

    def kill_one(self):
        targets = self.rng.choices(list(TARGETS), list(TARGETS.values()))[0].split()
        for what in targets:
            self.done[what] += self.kill(what)
        if "driver" in targets:
            self.start_driver()
        for what in targets:
            if what in self.servers:
                time.sleep(self.rng.uniform(0, 0.5))
                self.servers[what].start()

    def await_log(self):
        """Waits until the first driver has begun: over a new log each database has to be there once."""
        until = time.monotonic() + 60
        while not os.path.exists(f"{self.world.log}-databases") and time.monotonic() < until:
            time.sleep(0.05)
        time.sleep(1)

    def run(self, kills):
        self.start_driver()
        self.await_log()
        while sum(self.done.values()) < kills:
            time.sleep(self.rng.uniform(*PAUSE))
            self.see_driver()
            self.kill_one()
            if self.rng.random() < 0.02:
                print(f"  {sum(self.done.values())} kills", file=sys.stderr, flush=True)
        self.kill("driver")
        # One more life, to its end.
        self.start_driver(seconds=3)
        out, _ = self.driver.communicate(timeout=300)
        if self.driver.returncode != 0:
            self.note_failure()
        else:
            self.counts.update(json.loads(out))


def run(world, kills, threads, seed):
    """Prints the figures. How much was wrong."""
    world.prepare()
    begun = time.monotonic()
    it = Kills(world, threads, random.Random(seed))
    try:
        it.run(kills)
    finally:
        if it.driver is not None and it.driver.poll() is None:
            it.driver.kill()
            it.driver.wait()
    with world.manager(1):
        pass
    found = world.look()
    print(f"kills: {sum(it.done.values())} in {time.monotonic() - begun:.0f} seconds, seed {seed}:", dict(sorted(it.done.items())))
    for name, count in found.items():
        print(f"kills: {count} {name}")
    print(f"kills: {it.unexplained()} branches that somebody else ended")
    print(f"kills: {it.failed} drivers that failed otherwise; the last one: {dict(it.counts)}")
    wrong = found["in one and not the other, or different"] + found["told, and otherwise in the databases"] + found["in doubt"]
    return wrong + it.failed + (found["sum"] != SUM)
