"""All edits of a crate, tried, and what is kept of that."""

import contextlib
import fcntl
import hashlib
import json
import os
import tempfile
import time

from .crates import CACHE, text_of
from .edits import edits_of
from .prover import Prover, Stopped
from .reports import first_words
from .verdicts import BAD, REFUSED, UNSURE, give, try_all


REFUSALS = f"{CACHE}/edits"


class Kept:
    """What edits came to that were refused, under a sum of all that it was made from."""

    def __init__(self, kit, crate):
        self.kit, self.crate, self.sum = kit, crate, crate.sum_of_check(kit)

    def file(self, edit):
        return f"{REFUSALS}/{hashlib.sha256(repr((self.sum, edit.name, edit.text)).encode()).hexdigest()}"

    @contextlib.contextmanager
    def alone(self, stops):
        """Waits until no other run tries edits over the same sum, and keeps others waiting."""
        os.makedirs(REFUSALS, exist_ok=True)
        with open(f"{REFUSALS}/{self.sum}.lock", "w", encoding="utf-8") as lock:
            while True:
                try:
                    fcntl.flock(lock, fcntl.LOCK_EX | fcntl.LOCK_NB)
                    break
                except BlockingIOError:
                    if stops.wait(0.5):
                        raise Stopped from None
            yield

    def take(self, edits):
        for it in edits:
            with contextlib.suppress(OSError, ValueError, KeyError):
                it.kind, it.why = REFUSED, json.loads(text_of(self.file(it)))["why"]

    def keep(self, edits):
        """Keeps those that were refused, unless a file that they rest on has changed meanwhile."""
        if self.crate.sum_of_check(self.kit) != self.sum:
            return
        os.makedirs(REFUSALS, exist_ok=True)
        for it in edits:
            if it.kind == REFUSED:
                with tempfile.NamedTemporaryFile("w", dir=REFUSALS, delete=False, encoding="utf-8") as new:
                    json.dump({"why": it.why}, new)
                os.replace(new.name, self.file(it))


class CrateRun:
    def __init__(self, kit, crate, say):
        self.kit, self.crate, self.say = kit, crate, say
        self.edits, others = edits_of(crate)
        self.bad = [f"{crate.name}/edits/{it}: it is no file NAME.edit" for it in others]
        found = {}
        for it in self.edits:
            it.read(kit, crate, found)
            if it.bad:
                give(it, BAD, it.bad)

    def left(self):
        return [it for it in self.edits if not it.kind]

    def take_kept(self, anew):
        self.kept, self.anew = Kept(self.kit, self.crate), anew
        self.take()

    def take(self):
        if not self.anew:
            self.kept.take(self.left())

    def run(self, room, whole, is_known):
        """Tries those that are left, and says what each came to. What another run tries now it
        waits for."""
        if self.left():
            with self.kept.alone(room.stops):
                self.take()
                if self.left():
                    self.try_left(self.left(), room, whole, is_known)
        for it in self.edits:
            self.say(f"{self.crate.name}/{it.name}: {it.kind}: {it.why}")

    def try_left(self, left, room, whole, is_known):
        lacking = [it.name for it in self.crate.below() if not os.path.isdir(it.rlib)]
        if lacking:
            for it in left:
                give(it, UNSURE, f"the library {lacking[0]} isn't built")
            return
        begun, prover = time.time(), Prover(self.kit, self.crate, room, is_known)
        said = prover.prove(left, whole)
        begins = prover.seconds
        if said:
            for it in left:
                give(it, UNSURE, f"the crate as it stands isn't proved: {first_words(said.text)}")
            return
        # Each is kept as soon as it is known, so that a run that is ended has kept what it tried.
        for some in try_all(left, prover, whole):
            self.kept.keep(some)
        self.say(
            f"{self.crate.name}: {len(left)} edits, {prover.checks} checks, {prover.seconds:.0f} processor seconds, {begins:.0f} of"
            f" them for the crate as it stands; {time.time() - begun:.0f} seconds; up to {prover.bytes / 1e9:.1f} GB"
        )
        prover.clean()
