"""The parts of ./check, and what each comes to."""

import collections
import os
import re
import shutil
import sys
import tempfile
import threading
import time

from .crates import CACHE, summed, text_of

# What a part passed and failed.
Count = collections.namedtuple("Count", "passed failed")
COUNTS = re.compile(r"(\d+) passed, (\d+) failed")
# What a part says that it leaves out here; of Python's tests, each that is skipped says why.
LACKS = re.compile(r"(?m)left out: (.*)")
SKIPPED = re.compile(r"(?m)(?:^| )skipped [\"'](.*)[\"']$")


class Part:
    """A program to run, and what to count of what it prints (count, of its status and its text). If
    there is a sum of all that it rests on, it is run once, if all of it passes. If it waits with a
    limit, a busy machine may make it fail, and it says so (limits, of its text): then it is run
    again by itself, and that counts."""

    def __init__(self, name, words, folder, count, rests_on=None, limits=None):
        self.name, self.words, self.folder, self.count, self.limits = name, words, folder, count, limits
        self.kept = rests_on and f"{CACHE}/tried/{summed([name, rests_on])}"

    def known(self):
        """How much of it passed, if it is known that all did."""
        if not self.kept or not os.path.isfile(self.kept):
            return None
        return int(text_of(self.kept))

    def keep(self, count):
        if self.kept and count.failed == 0:
            os.makedirs(os.path.dirname(self.kept), exist_ok=True)
            with open(f"{self.kept}-{os.getpid()}", "w", encoding="utf-8") as it:
                it.write(str(count.passed))
            os.replace(it.name, self.kept)


def one(status, _):
    """A program is one thing that passes or fails."""
    return Count(1, 0) if status == 0 else Count(0, 1)


def uncounted(_, __):
    """Another part counts what it comes to."""
    return Count(0, 0)


def by_last_line(status, text):
    """What the last line that says so counts."""
    found = COUNTS.findall(text)
    return at_least_one_failed(status, Count(*map(int, found[-1])) if found else Count(0, 0))


def tests(status, text):
    """Of rt try --test: each test."""
    found = re.search(r"(?m)^test result: .*?(\d+) passed; (\d+) failed", text)
    is_ended = re.search(r"(?m)^run=ended status=0 ", text)
    counts = Count(int(found[1]), int(found[2])) if found else Count(0, 0)
    return at_least_one_failed(status if is_ended and found else 1, counts)


def cases(status, text):
    """Of rt try --cases: each file."""
    lines = re.findall(r"(?m)^case=.*", text)
    passed = sum(" run=ended " in it and " output=expected " in it for it in lines)
    return at_least_one_failed(status if lines else 1, Count(passed, len(lines) - passed))


def python_tests(status, text):
    """Of unittest: each test that wasn't skipped."""
    ran = re.search(r"(?m)^Ran (\d+) test", text)
    ended = re.search(r"(?m)^(?:OK|FAILED) \((.*)\)$", text)
    counts = collections.Counter({it.strip(): int(n) for it, n in re.findall(r"([a-z ]+)=(\d+)", ended[1] if ended else "")})
    failed = counts["failures"] + counts["errors"] + counts["unexpected successes"]
    return at_least_one_failed(status if ran else 1, Count(int(ran[1]) - failed - counts["skipped"] if ran else 0, failed))


def at_least_one_failed(status, count):
    return count if status == 0 or count.failed else Count(count.passed, 1)


def faults_in(text):
    """What is shown of a part that failed: of unittest, which names each test, only what failed."""
    return text[max(text.find("\n======"), 0) :]


def left_out(text):
    """What a part leaves out for want of something, each reason once, and how many tests for it."""
    skipped = collections.Counter(SKIPPED.findall(text))
    return [*dict.fromkeys(LACKS.findall(text)), *(f"{count} test{'s' * (count > 1)}: {why}" for why, count in skipped.items())]


class Runner:
    """Runs parts, and adds up what they come to. What they make, beside rt ci, lies in one folder,
    which goes with this."""

    def __init__(self, running):
        self.running, self.passed, self.failed, self.printing = running, 0, 0, threading.Lock()
        # What is left out, and the parts that are to be run again.
        self.lacks, self.again = [], []
        self.folder = tempfile.mkdtemp(prefix="xatm-check-")
        # rt runs programs as nobody
        os.chmod(self.folder, 0o755)

    def clean(self):
        shutil.rmtree(self.folder, ignore_errors=True)

    def say(self, text):
        with self.printing:
            print(f"check: {text}", flush=True)

    def shown(self, part, heard=None):
        """Runs a part whose lines are shown as they come, and given to heard, and returns whether
        all of it passed."""
        self.say(f"{part.name} begins")
        return self.run(part, shows=True, heard=heard)

    def run(self, part, shows=False, heard=None):
        """Runs a part, and shows what it printed once it has failed, or as it comes. Returns
        whether all of it passed."""
        known = part.known()
        if known is not None:
            self.add(part, Count(known, 0), "as earlier")
            return True
        begun, lines = time.time(), []
        environment = dict(os.environ, TMPDIR=self.folder) if part.words[0] != "rt" or "ci" not in part.words else None
        with tempfile.TemporaryFile("w+", dir=self.folder, errors="replace", encoding="utf-8") as out:
            to = {"stdout": -1 if shows else out, "stderr": -2}
            started = self.running.start(part.words, cwd=part.folder, env=environment, errors="replace", encoding="utf-8", **to)
            for it in started.stdout or ():
                sys.stdout.write(it)
                sys.stdout.flush()
                lines.append(it)
                if heard:
                    heard(it)
            status = started.wait()
            out.seek(0)
            text = "".join(lines) or out.read()
        count = part.count(status, text)
        part.keep(count)
        took = f"in {time.time() - begun:.0f} seconds"
        if count.failed and part.limits and part.limits.search(text) and part not in self.again:
            self.again.append(part)
            with self.printing:
                sys.stdout.write("" if shows else faults_in(text))
                print(f"check: {part.name}: {count.failed} failed, {took}, beside others: it is run again by itself", flush=True)
            return False
        self.lacks += [f"{part.name}: {it}" for it in left_out(text)]
        self.add(part, count, took, faults_in(text) if count.failed and not shows else "")
        return count.failed == 0

    def run_again(self):
        """Runs what may have failed because others ran beside it, one after the other."""
        for it in self.again:
            self.run(it)

    def add(self, part, count, how, text=""):
        with self.printing:
            self.passed, self.failed = self.passed + count.passed, self.failed + count.failed
            sys.stdout.write(text)
            print(f"check: {part.name}: {count.passed} passed, {count.failed} failed, {how}", flush=True)

    def end(self):
        """Says what was left out, and what all comes to; the status is 0 if nothing failed."""
        for it in self.lacks:
            self.say(f"left out: {it}")
        print(f"{self.passed} passed, {self.failed} failed", flush=True)
        return 1 if self.failed else 0
