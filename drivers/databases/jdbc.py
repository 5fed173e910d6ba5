"""Transfers a second from Java, whose threads have no interpreter's lock: java/Speed.java, over the databases' JDBC drivers. Through
Bitronix too, where it is there."""

import collections
import glob
import os
import shutil
import statistics
import subprocess
import tempfile

from servers import Missing, PostgreSQLServer, free_port
from world import HERE, TOP

JARS = "/usr/share/java"
#: The files of what drivers/java, Bitronix, ActiveMQ and Hibernate need, and their packages of Debian.
INTERFACES = {
    "geronimo-jta-1.2-spec.jar": "libgeronimo-jta-1.2-spec-java",
    "geronimo-jms_1.1_spec.jar": "libgeronimo-jms-1.1-spec-java",
}
BITRONIX = {"btm.jar": "libbtm-java", "slf4j-api.jar": "libslf4j-java", "slf4j-nop.jar": "libslf4j-java"}
ACTIVEMQ = {
    "activemq-broker.jar": "libactivemq-java",
    "activemq-client.jar": "libactivemq-java",
    "activemq-kahadb-store.jar": "libactivemq-java",
    "activemq-openwire-legacy.jar": "libactivemq-java",
    "activemq-protobuf.jar": "libactivemq-protobuf-java",
    "hawtbuf.jar": "libhawtbuf-java",
    "geronimo-j2ee-management-1.1-spec.jar": "libgeronimo-j2ee-management-1.1-spec-java",
    "slf4j-api.jar": "libslf4j-java",
    "slf4j-nop.jar": "libslf4j-java",
}
HIBERNATE = {
    "hibernate-core.jar": "libhibernate3-java",
    "hibernate-commons-annotations.jar": "libhibernate-commons-annotations-java",
    "geronimo-jpa_2.0_spec.jar": "libgeronimo-jpa-2.0-spec-java",
    "antlr.jar": "libantlr-java",
    "commons-collections3.jar": "libcommons-collections3-java",
    "dom4j.jar": "libdom4j-java",
    "javassist.jar": "libjavassist-java",
    "slf4j-api.jar": "libslf4j-java",
    "slf4j-nop.jar": "libslf4j-java",
}
WAYS = {"coordinator": "through the coordinator", "bitronix": "through Bitronix", "hand": "by hand"}


def driver_of(server):
    """The JDBC driver of a server, and its package of Debian."""
    if isinstance(server, PostgreSQLServer):
        return "postgresql.jar", "libpostgresql-jdbc-java"
    return "mariadb-java-client.jar", "libmariadb-java"


def paths_of(packages):
    """The paths of these files. Raises Missing with those that aren't there."""
    missing = {package for name, package in packages.items() if not os.path.exists(f"{JARS}/{name}")}
    if missing:
        raise Missing(f"Java's packages {', '.join(sorted(missing))}, of Debian")
    return [f"{JARS}/{name}" for name in packages]


def compiled(folder, names):
    """Compiles programs of java/ into a folder, over the jar of drivers/java. What they are run with beside that folder. Raises
    Missing."""
    for name in ("java", "javac", "jar"):
        if shutil.which(name) is None:
            raise Missing(f"{name} (of Debian the package default-jdk-headless)")
    path = paths_of(INTERFACES)
    if "Bitronix" in names:
        path += paths_of(BITRONIX)
    if {"Bank", "Drain", "Broker"} & set(names):
        path += paths_of(ACTIVEMQ)
    if "Persist" in names:
        path += paths_of(HIBERNATE)
    subprocess.run([f"{TOP}/drivers/java/build", folder], check=True, stdout=subprocess.DEVNULL)
    path.append(f"{folder}/garterfossil-javax.jar")
    sources = [f"{HERE}/java/{name}.java" for name in names]
    subprocess.run(["javac", "-cp", ":".join([folder, *path]), "-sourcepath", f"{HERE}/java", "-d", folder, *sources], check=True)
    return path


class Java:
    """The program, compiled in a folder."""

    def __init__(self, world):
        self.world = world
        self.folder = tempfile.mkdtemp(dir=world.home)
        names = ["Speed"]
        try:
            paths_of(BITRONIX)
            names.append("Bitronix")
        except Missing as missing:
            print(f"speed: without Bitronix: {missing}")
        self.path = [self.folder, *paths_of(dict(driver_of(server) for server in world.servers)), *compiled(self.folder, names)]

    def rates(self, threads, seconds, rounds):
        """By the way: the middle of its transfers a second, and of the microseconds of processor a transfer, by the program."""
        self.world.prepare()
        urls = [server.url() for server in self.world.servers]
        words = ["java", "-cp", ":".join(self.path), "Speed", *urls, self.folder, str(seconds), str(rounds), str(threads)]
        it = subprocess.run([*words, self.world.coordinator, self.world.log], stdout=subprocess.PIPE, text=True, check=True)
        for path in glob.glob(f"{self.folder}/*.tlog"):
            os.remove(path)
        rates, costs = collections.defaultdict(list), collections.defaultdict(lambda: collections.defaultdict(list))
        for line in it.stdout.splitlines():
            way, rate, *cost = line.split()
            rates[way].append(float(rate))
            for program, micros in zip(cost[::2], cost[1::2]):
                costs[way][program].append(float(micros))
        middle = statistics.median
        return {way: (middle(found), {it: middle(one) for it, one in costs[way].items()}) for way, found in rates.items()}


def told(cost):
    """What a transfer costs, of all programs and of each."""
    return f"{sum(cost.values()):.0f} ({', '.join(f'{it} {micros:.0f}' for it, micros in cost.items() if micros)})"


#: At so many threads.
THREADS = [1, 4, 8, 32, 64]


def run(world, seconds, rounds, threads):
    """Prints the figures, for each number of threads. The servers listen on TCP meanwhile, which is all that the drivers know."""
    try:
        java = Java(world)
    except Missing as missing:
        print(f"speed: without Java: {missing}")
        return
    silent = [server for server in world.servers if server.port is None]
    for server in silent:
        server.restart(free_port())
    try:
        for number in threads:
            rates = java.rates(number, seconds, rounds)
            mine, _ = rates["coordinator"]
            others = [(rates[way][0], WAYS[way]) for way in WAYS if way in rates and way != "coordinator"]
            beside = [f"{rate:.0f} {way}: {mine / rate:.2f} of that" for rate, way in others]
            print(f"speed: Java, {number} threads{world.network}: {mine:.0f} transfers a second; {'; '.join(beside)}", flush=True)
            costs = [f"{WAYS[way]} {told(rates[way][1])}" for way in WAYS if way in rates]
            print(f"speed: Java, {number} threads{world.network}: microseconds of processor a transfer: {'; '.join(costs)}", flush=True)
    finally:
        for server in silent:
            server.restart(None)
