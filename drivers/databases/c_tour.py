"""Stories from C over both databases, with the address and undefined sanitizers: those of drivers/c/tests/databases/tour.c; whether each
switch answers as C193 has it; and a program in each language above the driver."""

import os
import shutil
import subprocess
import tempfile
import time

import c_programs
from servers import Missing

SANITIZERS = "-fsanitize=address,undefined -fno-omit-frame-pointer"
#: Of each language: what builds it, and how. The example in C stands in the driver's README.
LANGUAGES = {
    "C": ("gcc", "gcc {source}/transfer.c -o {to} {flags}"),
    "C++": ("g++", "g++ -std=c++17 {source}/transfer.cc -o {to} {flags}"),
    "Go": ("go", "go build -o {to} {source}/transfer.go"),
    "COBOL": ("cobc", "cobc -x -Q -Wl,--no-as-needed -o {to} {source}/transfer.cob {libraries}"),
}


def see(name, words, environment, ends_with):
    """Runs a program of stories. Whether it was wrong."""
    # (LeakSanitizer can't look at libmariadb's threads.)
    environment = {**environment, "ASAN_OPTIONS": "detect_leaks=0", "UBSAN_OPTIONS": "halt_on_error=1"}
    done = subprocess.run(words, env=environment, stdout=subprocess.PIPE, stderr=subprocess.STDOUT, timeout=600, check=False)
    text = done.stdout.decode(errors="replace").strip()
    is_right = done.returncode == 0 and text.endswith(ends_with)
    print(f"{'ok   ' if is_right else 'WRONG'} C: {name}: {text.splitlines()[-1] if is_right else text}", flush=True)
    return not is_right


def see_stories(world, folder):
    """How many programs of stories were wrong."""
    infos = c_programs.infos(world, "c-tour")
    wrong = 0
    for library, symbol, info in (("postgresql", "gf_pg_switch", infos[0]), ("mariadb", "gf_mariadb_switch", infos[1])):
        words = [f"{folder}/switches.tried", f"{folder}/libgf_{library}.so.1", symbol, info]
        wrong += see(symbol, words, {**os.environ, "LD_LIBRARY_PATH": folder}, ", 0 otherwise than C193 has it")
    for is_dynamic in (False, True):
        world.prepare()
        name = f"t{int(time.time()):x}{is_dynamic:d}"
        words = [f"{folder}/tour", infos[0], world.servers[1].socket(), *(["dynamic"] if is_dynamic else [])]
        environment = c_programs.environment(world, folder, name, f"{world.home}/{name}.db", is_dynamic)
        wrong += see(" ".join(["stories", *words[3:]]), words, environment, ", 0 wrong")
    return wrong


def balances(world):
    found = []
    for database in world.databases():
        connection = database.connect()
        found.append(int(connection.run("SELECT balance FROM account WHERE id = 1").rows[0][0]))
        connection.close()
    return found


def see_languages(world, folder):
    """A transfer of 10 in each language. How many were wrong."""
    source = f"{c_programs.DRIVER}/examples"
    libraries = f"-L{folder} -lgarterfossil -lgf_postgresql -lgf_mariadb -lpq -lmariadb"
    includes = subprocess.run(["pkg-config", "--cflags", "libpq", "libmariadb"], stdout=subprocess.PIPE, text=True, check=True)
    flags = f"-I{c_programs.DRIVER}/include {includes.stdout.strip()} {libraries}"
    name = f"l{int(time.time()):x}"
    environment = {**c_programs.environment(world, folder, name, f"{world.home}/{name}.db"), "CGO_CFLAGS": flags.split(" -L")[0],
                   "CGO_LDFLAGS": libraries, "GOCACHE": f"{folder}/cache", "GOFLAGS": "-mod=mod", "GO111MODULE": "off"}
    wrong = 0
    for language, (command, how) in LANGUAGES.items():
        if not shutil.which(command):
            print(f"tour: without {language}: no {command}")
            continue
        to = f"{folder}/transfer-{language}"
        words = how.format(source=source, to=to, flags=flags, libraries=libraries).split()
        if subprocess.run(words, env=environment, check=False).returncode:
            wrong += 1
            print(f"WRONG C: a program in {language} isn't built", flush=True)
            continue
        before = balances(world)
        done = subprocess.run(
            [to, "1", "1", "10"], env=environment, stdout=subprocess.PIPE, stderr=subprocess.STDOUT, text=True, check=False
        )
        moved = [now - old for now, old in zip(balances(world), before)]
        is_right = done.returncode == 0 and moved == [-10, 10]
        wrong += not is_right
        print(f"{'ok   ' if is_right else 'WRONG'} C: a program in {language}: {moved} {done.stdout.strip()}", flush=True)
    return wrong


def run(world):
    """Prints each story. How many were wrong."""
    if not c_programs.is_over(world):
        print("tour: without C: its switches are for PostgreSQL and MariaDB")
        return 0
    try:
        with tempfile.TemporaryDirectory(dir=world.home) as folder:
            os.chmod(folder, 0o755)
            for it in ("sanitized", "plain"):
                os.mkdir(f"{folder}/{it}")
            c_programs.built(f"{folder}/sanitized", "tour", "switches.tried", sanitizers=SANITIZERS)
            c_programs.built(f"{folder}/plain")
            return see_stories(world, f"{folder}/sanitized") + see_languages(world, f"{folder}/plain")
    except Missing as missing:
        print(f"tour: without C: {missing}")
        return 0
