"""Transfers a second from C (drivers/c/tests/databases/speed.c), beside the same by hand in C: each database told to prepare and to
commit, one after the other; and both at the same time."""

import os
import statistics
import subprocess
import tempfile
import time

import c_programs
from servers import Missing

WAYS = {"tx": "through the coordinator", "hand": "by hand", "sides": "by hand, side by side"}


def measured(world, folder, environment, way, threads, seconds):
    """How many transfers a second, and what one took of the processors in the program and the coordinator, in microseconds."""
    info, _ = c_programs.infos(world, "c-speed")
    words = [f"{folder}/speed", way, str(threads), str(seconds), info, world.servers[1].socket()]
    done = subprocess.run(words, env=environment, stdout=subprocess.PIPE, text=True, check=True, timeout=seconds + 300)
    count, took, own, coordinator = map(float, done.stdout.split())
    return count / took, own / count * 1e6, coordinator / count * 1e6


def see(world, folder, threads, seconds, rounds):
    """By turns one way and the others."""
    name = f"s{int(time.time()):x}"
    environment = c_programs.environment(world, folder, name, f"{world.home}/{name}.db")
    found = {way: [] for way in WAYS}
    for _ in range(rounds):
        for way in WAYS:
            found[way].append(measured(world, folder, environment, way, threads, seconds))
    rates = {way: statistics.median(rate for rate, _, _ in found[way]) for way in WAYS}
    own, coordinator = (statistics.median(it[place] for it in found["tx"]) for place in (1, 2))
    texts = ", ".join(f"{rates[way]:.0f} {text}" for way, text in WAYS.items() if way != "tx")
    print(f"speed: C, {threads} threads{world.network}, load {os.getloadavg()[0]:.0f}: {rates['tx']:.0f} transfers a second; {texts}: "
          f"{rates['tx'] / rates['hand']:.2f} of by hand; {own:.0f} microseconds of a processor in the program, {coordinator:.0f} in the "
          "coordinator", flush=True)


def run(world, seconds, rounds, threads):
    """Prints the figures, for each number of threads."""
    if not c_programs.is_over(world):
        print("speed: without C: its switches are for PostgreSQL and MariaDB")
        return
    try:
        with tempfile.TemporaryDirectory(dir=world.home) as folder:
            os.chmod(folder, 0o755)
            c_programs.built(folder, "speed")
            for number in threads:
                see(world, folder, number, seconds, rounds)
    except Missing as missing:
        print(f"speed: without C: {missing}")
