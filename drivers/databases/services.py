"""Several services over the same two databases, each with a log and a name of its own: they are killed (SIGKILL) at random moments
while the others go on. And workers of one service, which are forked and take their logs themselves."""

import collections
import json
import os
import random
import signal
import subprocess
import sys
import time
import traceback

from servers import processes_of
from world import HERE, SUM

#: From the moment when a service has its coordinator to its next kill, in seconds: some of that is recovery.
PAUSE = 0.0, 2.0
WORKERS = 4


class Service:
    """A program that moves money, with its coordinator."""

    def __init__(self, world, name, rng):
        self.world, self.name, self.rng = world, name, rng
        self.kills = 0
        self.failed = 0
        self.process = None
        #: When it is killed next; None until it has its coordinator.
        self.next = None

    def start(self, seconds=86400):
        with open(f"{self.world.home}/{self.name}.log", "a") as it:
            words = [sys.executable, f"{HERE}/bank.py", self.world.home, str(seconds), "2", f"{self.world.home}/{self.name}.db"]
            self.process = subprocess.Popen(words, stdout=subprocess.PIPE, stderr=it)
        self.next = None

    def is_due(self):
        """Whether it is to be killed now."""
        if self.next is None and len(processes_of(self.process.pid)) > 1:
            self.next = time.monotonic() + self.rng.uniform(*PAUSE)
        return self.next is not None and time.monotonic() >= self.next

    def see(self):
        """One that has ended by itself failed: it is started again."""
        if self.process.poll() is not None:
            self.failed += 1
            print(f"services: {self.name} failed: {self.said()[-2000:]}", file=sys.stderr)
            self.process.stdout.close()
            self.start()

    def said(self):
        with open(f"{self.world.home}/{self.name}.log") as it:
            return it.read()

    def kill(self):
        """Kills it, or its coordinator alone, or both at once."""
        whole = processes_of(self.process.pid)
        chosen = self.rng.choice([whole[:1], whole[1:] or whole, whole])
        for number in chosen:
            try:
                os.kill(number, signal.SIGKILL)
            except ProcessLookupError:
                pass
        self.kills += 1
        if self.process.pid in chosen:
            self.process.wait()
            self.process.stdout.close()
            self.start()
        self.next = None

    def end(self):
        self.process.kill()
        self.process.wait()
        self.process.stdout.close()

    def last_life(self):
        """One more life, to its end: how many transfers there were of each kind."""
        self.start(seconds=3)
        out, _ = self.process.communicate(timeout=300)
        self.failed += self.process.returncode != 0
        return json.loads(out) if self.process.returncode == 0 else {}


def see_apart(world, texts):
    """How many branches somebody else has ended, by the drivers' notes: it would be another manager."""
    return sum(text.count("ended it by hand") + text.count("the resource ended it by itself") for text in texts)


def found_wrong(part, world, unexplained, failed):
    found = world.look()
    for name, count in found.items():
        print(f"{part}: {count} {name}")
    print(f"{part}: {unexplained} branches that somebody else ended, {failed} that failed otherwise")
    wrong = found["in one and not the other, or different"] + found["told, and otherwise in the databases"] + found["in doubt"]
    return wrong + failed + unexplained + (found["sum"] != SUM)


def run(world, kills, seed):
    """Two services, of which each is killed so often. How much was wrong."""
    world.prepare()
    begun, rng = time.monotonic(), random.Random(seed)
    some = [Service(world, f"service-{number}", rng) for number in (1, 2)]
    try:
        for one in some:
            one.start()
        while any(one.kills < kills for one in some):
            time.sleep(0.02)
            for one in some:
                one.see()
                if one.kills < kills and one.is_due():
                    one.kill()
    finally:
        for one in some:
            one.end()
    lives = collections.Counter()
    for one in some:
        lives.update(one.last_life())
    print(f"services: each killed {kills} times in {time.monotonic() - begun:.0f} seconds, seed {seed}; their last lives: {dict(lives)}")
    return found_wrong("services", world, see_apart(world, [one.said() for one in some]), sum(one.failed for one in some))


# ** workers


def work(world, seconds):
    """What a worker does, in a process that was forked: its log is the first that no other worker has."""
    import bank

    try:
        out = os.open(f"{world.home}/workers.log", os.O_WRONLY | os.O_CREAT | os.O_APPEND)
        os.dup2(out, 2)
        os.dup2(os.open(f"{world.home}/workers.out", os.O_WRONLY | os.O_CREAT | os.O_APPEND), 1)
        random.seed()
        bank.run(world, seconds, 2, f"{world.home}/worker-{{worker}}.db")
        os._exit(0)
    except BaseException:
        traceback.print_exc()
        os._exit(1)


def forked(world, seconds=86400):
    number = os.fork()
    if number == 0:
        work(world, seconds)
    return number


def await_coordinator(number):
    """Waits until a worker has its coordinator, or is gone."""
    until = time.monotonic() + 30
    while len(processes_of(number)) < 2 and time.monotonic() < until:
        time.sleep(0.02)


def run_workers(world, kills, seed):
    """Workers of one service, of which one after the other is killed, so many in all. How much was wrong."""
    world.prepare()
    begun, rng, failed = time.monotonic(), random.Random(seed), 0
    alive = [forked(world) for _ in range(WORKERS)]
    try:
        for _ in range(kills):
            at = rng.randrange(WORKERS)
            await_coordinator(alive[at])
            time.sleep(rng.uniform(*PAUSE))
            ended, _ = os.waitpid(alive[at], os.WNOHANG)
            failed += ended != 0
            if not ended:
                for number in processes_of(alive[at])[:: rng.choice([1, -1])]:
                    try:
                        os.kill(number, signal.SIGKILL)
                    except ProcessLookupError:
                        pass
                os.waitpid(alive[at], 0)
            alive[at] = forked(world)
    finally:
        for number in alive:
            os.kill(number, signal.SIGKILL)
            os.waitpid(number, 0)
    last = [forked(world, seconds=3) for _ in range(WORKERS)]
    failed += sum(os.waitpid(number, 0)[1] != 0 for number in last)
    logs = sorted(name for name in os.listdir(world.home) if name.startswith("worker-") and name.endswith(".db"))
    print(f"workers: {WORKERS} of them, {kills} killed in {time.monotonic() - begun:.0f} seconds, seed {seed}, over the logs {', '.join(logs)}")
    with open(f"{world.home}/workers.log") as it:
        unexplained = see_apart(world, [it.read()])
    return found_wrong("workers", world, unexplained, failed)
