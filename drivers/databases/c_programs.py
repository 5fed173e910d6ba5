"""Programs over the driver in C: how they are built, and what they are told of both databases."""

import os
import shutil
import subprocess

from servers import MariaDBServer, Missing, PostgreSQLServer
from world import TOP

DRIVER = f"{TOP}/drivers/c"
#: Each with Debian's package that has it.
NEEDED = {"gcc": "gcc", "make": "make", "pkg-config": "pkg-config"}
LIBRARIES = {"libpq": "libpq-dev", "libmariadb": "libmariadb-dev"}
#: By this word each process finds the connections of an earlier one.
LABEL = "c-bank"


def built(folder, *programs, sanitizers=""):
    """Builds the driver and programs of its tests in a folder: the folder."""
    for name, package in NEEDED.items():
        if not shutil.which(name):
            raise Missing(f"{name} (Debian's package {package})")
    for name, package in LIBRARIES.items():
        if subprocess.run(["pkg-config", "--exists", name], check=False).returncode:
            raise Missing(f"{name} (Debian's package {package})")
    words = ["make", "-s", "-C", DRIVER, f"OUT={folder}", *([f"SANITIZE={sanitizers}"] if sanitizers else [])]
    subprocess.run([*words, "all", *(f"{folder}/{name}" for name in programs)], check=True)
    return folder


def is_over(world):
    """Whether the world's servers are those that the driver has switches for."""
    return [type(server) for server in world.servers] == [PostgreSQLServer, MariaDBServer]


def infos(world, label=LABEL):
    """What xa_open takes, of each server."""
    pg, mariadb = world.servers
    return [f"host={pg.home} user=xa dbname=postgres application_name={label} options='-c lock_timeout=2s'",
            f"socket={mariadb.socket()} user=bank db=bank lock_timeout=2 label={label}"]


def environment(world, folder, name, log, is_dynamic=False, patience=60):
    """Writes the settings of both databases, and gives the environment that names them."""
    kind = "_dynamic" if is_dynamic else ""
    pg, mariadb = infos(world)
    path = f"{world.home}/{name}.settings"
    with open(path, "w", encoding="utf-8") as it:
        it.write(f"program {world.coordinator}\nlog {log}\nname {name}\nthreads 8\npatience {patience}\n"
                 f"rm bank {folder}/libgf_postgresql.so.1 gf_pg{kind}_switch {pg}\n"
                 f"rm shop {folder}/libgf_mariadb.so.1 gf_mariadb{kind}_switch {mariadb}\n")
    return {**os.environ, "GARTERFOSSIL_SETTINGS": path, "LD_LIBRARY_PATH": folder}
