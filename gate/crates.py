"""The toolchain's kit, and the crates that crates.txt lists."""

import functools
import hashlib
import os
import shutil
import sys

PARTS = ("src", "specs", "proofs")
# What of this tool settles what an edit comes to.
JUDGES = ("answers", "crates", "edits", "functions", "places", "prover", "reports", "stubs", "verdicts")
# The folders of a library, as built, in which its statements are, and the files that have sums of its code besides.
STATED, SUMS = ("interface", "below", "lang"), ("made.json", "format")
HERE = os.path.dirname(os.path.realpath(__file__))
CACHE = f"{os.environ.get('XDG_CACHE_HOME') or os.path.expanduser('~/.cache')}/garterfossil"


def text_of(file):
    with open(file, encoding="utf-8") as it:
        return it.read()


def kit_folder():
    rt = shutil.which("rt")
    if not rt:
        sys.exit("the command rt of the Rattle toolchain isn't on the PATH")
    return os.path.dirname(os.path.dirname(os.path.realpath(rt)))


def crates_of(top):
    """The crates of a repository, by name."""
    lines = [it.partition("#")[0].strip() for it in text_of(f"{top}/crates.txt").split("\n")]
    crates = {}
    for it in filter(None, lines):
        crate = Crate(top, it, crates)
        crates[crate.name] = crate
    return crates


class Crate:
    def __init__(self, top, line, crates):
        head, _, tail = line.partition(":")
        self.name, self.line, self.uses, self.all = head.split()[0], line, tail.split(), crates
        self.folder = f"{top}/crates/{self.name}"
        self.rlib = f"{self.folder}/out/rlib/{self.name}.rlib"
        self.kept = f"{self.folder}/out/incremental"

    def root(self):
        return next(it for it in ("src/main.rt", "src/lib.rt") if os.path.isfile(f"{self.folder}/{it}"))

    def below(self):
        """The crates of the repository below it, each after those that it uses."""
        found = []
        for it in (self.all[it] for it in self.uses if it in self.all):
            found += [one for one in [*it.below(), it] if one not in found]
        return found

    def files(self, parts=PARTS):
        """The paths of its files, in order."""
        for part in parts:
            for at, folders, names in os.walk(f"{self.folder}/{part}"):
                folders.sort()
                yield from (f"{at}/{it}" for it in sorted(names))

    def lines(self):
        """How many lines of code it has: about how long it takes, beside the others."""
        return sum(text_of(it).count("\n") for it in self.files(("src",)))

    def words(self, kit):
        """The words of a check of it, before those that say of what."""
        words = ["--crate-name", self.name, self.root(), "-L", f"dependency={kit}/rlibs"]
        for it in ("std", *self.uses):
            rlib = self.all[it].rlib if it in self.all else f"{kit}/rlibs/{it}.rlib"
            words += ["--extern", f"{it}={rlib}"]
        for it in self.below():
            words += ["-L", f"dependency={os.path.dirname(it.rlib)}"]
        words += ["--antt-project", f"{kit}/rattle/logic/antt-project.json", "--logic-built", f"{kit}/logic_built"]
        return words + ["--links", f"{self.name}="]

    def sum(self):
        """A sum of its files and of those of the crates below it."""
        return summed([it.own_files() for it in [*self.below(), self]])

    def sum_of_check(self, kit):
        """A sum of all that a check of it with an edit reads, of the prover and of what judges that here. Of a library below it a check
        reads what it states, and not how its functions are written: a function is proved by the contracts of those that it calls."""
        prover = os.stat(f"{kit}/bin/rattle")
        judges = [text_of(f"{HERE}/{it}.py") for it in JUDGES]
        libraries = [(it.name, it.stated()) for it in self.below()]
        return summed([text_of(f"{kit}/KIT-ID"), prover.st_size, prover.st_mtime_ns, judges, self.own_files(), libraries])

    def own_files(self):
        return [self.line, *((os.path.relpath(it, self.folder), text_of(it)) for it in self.files())]

    def stated(self):
        """A sum of what its library, as built, says to those above; None if it isn't built."""
        if not os.path.isfile(f"{self.rlib}/format"):
            return None
        # Each build of a library makes all its files anew.
        built = os.stat(f"{self.rlib}/format")
        return stated_by(self.rlib, (built.st_ino, built.st_mtime_ns))


@functools.lru_cache(maxsize=None)
def stated_by(rlib, _built):
    found = []
    for at, folders, names in os.walk(rlib):
        folders[:] = sorted(it for it in folders if at != rlib or it in STATED)
        found += [(os.path.relpath(f"{at}/{it}", rlib), text_of(f"{at}/{it}")) for it in sorted(names) if it not in SUMS]
    return summed(found)


def summed(parts):
    return hashlib.sha256(repr(parts).encode()).hexdigest()
