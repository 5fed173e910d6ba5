"""Databases behind a network: what programs and a server send each other passes through a proxy (delay.c), which hands it on so many
microseconds later."""

import contextlib
import copy
import os
import shutil
import statistics
import subprocess
import tempfile
import time

from servers import Missing, free_port
from world import HERE

#: So often one SELECT is timed.
TIMES = 300


def built(folder):
    """Compiles the proxy in a folder. Raises Missing."""
    if shutil.which("gcc") is None:
        raise Missing("gcc (Debian's package gcc)")
    subprocess.run(["gcc", "-std=c11", "-O2", "-Wall", "-Wextra", "-Werror", "-o", f"{folder}/delay", f"{HERE}/delay.c"], check=True)
    return f"{folder}/delay"


@contextlib.contextmanager
def behind(program, server, folder, micros):
    """The same server as programs find it behind a network, on a socket in the folder and on a port."""
    far = type(server).found(folder, server.name)
    far.port = free_port()
    os.mkdir(far.home)
    words = [program, str(micros), server.socket(), far.socket(), str(far.port)]
    # It ends as its input is closed, however this ends.
    with subprocess.Popen(words, stdin=subprocess.PIPE, stdout=subprocess.PIPE) as proxy:
        if proxy.stdout.readline() != b"ready\n":
            raise OSError(f"{' '.join(words)} doesn't listen")
        yield far


@contextlib.contextmanager
def network(world, micros):
    """The world, with each database behind a network of so many microseconds each way. Raises Missing."""
    with tempfile.TemporaryDirectory(dir=world.home) as folder, contextlib.ExitStack() as open_ones:
        os.chmod(folder, 0o755)
        program = built(folder)
        far = copy.copy(world)
        far.servers = [open_ones.enter_context(behind(program, server, folder, micros)) for server in world.servers]
        far.network = f", each database {micros} microseconds away each way"
        yield far


def round_trips(server):
    """The microseconds that each SELECT 1 of another program's connection took, and whether a long text came whole."""
    link = server.plain()
    took = []
    with contextlib.closing(link), link.cursor() as cursor:
        for _ in range(TIMES):
            begun = time.perf_counter()
            cursor.execute("SELECT 1")
            cursor.fetchall()
            took.append((time.perf_counter() - begun) * 1e6)
        cursor.execute("SELECT REPEAT('abcdefg', 1000000)")
        is_whole = cursor.fetchall()[0][0] == "abcdefg" * 1000000
    return took, is_whole


def see(world, far, micros):
    """Prints what a round trip takes without the network and over it, as a program measures it. How many databases weren't as far as they
    should be, or didn't answer whole."""
    wrong = 0
    for near_server, far_server in zip(world.servers, far.servers):
        near, _ = round_trips(near_server)
        over, is_whole = round_trips(far_server)
        is_right = is_whole and min(over) >= 2 * micros
        wrong += not is_right
        added = statistics.median(over) - statistics.median(near)
        print(f"speed: the network of {type(far_server).__name__}: SELECT 1 takes {statistics.median(over):.0f} microseconds over it, at least "
              f"{min(over):.0f}, and {statistics.median(near):.0f} without it: {added:.0f} more, of {2 * micros}"
              f"{'' if is_right else ': WRONG'}", flush=True)
    return wrong
