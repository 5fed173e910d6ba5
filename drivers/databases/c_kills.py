"""Kills (SIGKILL) the coordinator, the program in C over drivers/c and the databases at random moments, while money moves; starts again
what was killed; and compares at the end what they hold, and what the program was told."""

import os
import random
import subprocess
import sys
import tempfile
import time

import c_programs
import kills
from servers import Missing
from world import SUM

#: Of all of them: what is killed together, and how often.
TARGETS = {**kills.TARGETS, "driver coordinator db0 db1": 1}


class CKills(kills.Kills):
    def __init__(self, world, folder, is_dynamic, threads, rng):
        super().__init__(world, threads, rng)
        name = f"c{int(time.time()):x}"
        self.words = [f"{folder}/bank", str(threads)]
        self.environment = c_programs.environment(world, folder, name, f"{world.home}/{name}.db", is_dynamic)

    def start_driver(self, seconds=86400):
        with open(f"{self.world.home}/driver.log", "a", encoding="utf-8") as it:
            self.driver = subprocess.Popen([*self.words, str(seconds), f"{self.world.home}/told"], stdout=subprocess.PIPE, stderr=it,
                                           env=self.environment)

    def kill_one(self):
        targets = self.rng.choices(list(TARGETS), list(TARGETS.values()))[0].split()
        for what in targets:
            self.done[what] += self.kill(what)
        if "driver" in targets:
            self.start_driver()
        for what in targets:
            if what in self.servers:
                time.sleep(self.rng.uniform(0, 0.5))
                self.start_again(self.servers[what])

    @staticmethod
    def start_again(server):
        """Also where processes of the one that was killed are still ending, as they do on a busy machine."""
        for _ in range(20):
            try:
                return server.start()
            except SystemExit:
                time.sleep(1)
        return server.start()

    def run(self, count):
        self.start_driver()
        while sum(self.done.values()) < count:
            time.sleep(self.rng.uniform(*kills.PAUSE))
            self.see_driver()
            self.kill_one()
            if sum(self.done.values()) % 50 == 0:
                print(f"  {sum(self.done.values())} kills", file=sys.stderr, flush=True)
        self.kill("driver")
        # One more life, to its end.
        self.start_driver(seconds=5)
        out, _ = self.driver.communicate(timeout=300)
        if self.driver.returncode != 0:
            self.note_failure()
        self.counts["last"] = out.decode().strip()


def run_one(world, folder, is_dynamic, count, seed):
    """Prints the figures. How much was wrong."""
    world.prepare()
    begun = time.monotonic()
    it = CKills(world, folder, is_dynamic, 4, random.Random(seed))
    try:
        it.run(count)
    finally:
        if it.driver is not None and it.driver.poll() is None:
            it.driver.kill()
            it.driver.wait()
    found = world.look()
    how = "C, branches that begin later" if is_dynamic else "C"
    print(f"{how}: {sum(it.done.values())} kills in {time.monotonic() - begun:.0f} seconds, seed {seed}:", dict(sorted(it.done.items())))
    print(f"{how}:", ", ".join(f"{number} {name}" for name, number in found.items()), flush=True)
    print(f"{how}: {it.failed} programs that failed; the last one: {it.counts['last']}")
    wrong = found["in one and not the other, or different"] + found["told, and otherwise in the databases"] + found["in doubt"]
    # A run that moved nothing has shown nothing.
    return wrong + it.failed + (found["sum"] != SUM) + (found["transfers in both"] == 0)


def run_store(world, folder, count, seed):
    """Money between two environments of Berkeley DB, while the coordinator is killed. Prints the figures. How much was wrong."""
    if not os.path.exists("/usr/include/db.h"):
        print("C: left out: Berkeley DB (Debian's package libdb5.3-dev)")
        return 0
    c_programs.built(folder, "store")
    words = [f"{c_programs.DRIVER}/tests/berkeley", f"{folder}/store", str(count), str(seed)]
    return subprocess.run(words, env={**os.environ, "XATM": world.coordinator}, check=False).returncode


def run(world, count, seed, sanitizers=""):
    """Half of the kills over each kind of switch, and a fifth as many more with Berkeley DB. How much was wrong."""
    if not c_programs.is_over(world):
        print("C: left out: its switches are for PostgreSQL and MariaDB")
        return 0
    try:
        with tempfile.TemporaryDirectory(dir=world.home) as folder:
            os.chmod(folder, 0o755)
            c_programs.built(folder, "bank", sanitizers=sanitizers)
            wrong = sum(run_one(world, folder, is_dynamic, count // 2, seed + is_dynamic) for is_dynamic in (False, True))
            return wrong + run_store(world, folder, count // 5, seed)
    except Missing as missing:
        print(f"C: left out: {missing}")
        return 0
