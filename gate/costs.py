"""About how long ./check takes here, by the processors, how many and how fast, and by what is
kept."""

import functools
import os
import time
import timeit

from .crates import CACHE, crates_of
from .edits import edits_of
from .machine import BYTES_A_JOB, jobs_for, processors

# All that follows was measured on a machine that adds up so many squares in so many seconds.
SQUARES, SECONDS = 200_000, 0.0115
# Minutes of one processor, from nothing: of --quick, of what the whole gate does of it, and of all
# proofs of rt ci with the tests. (94 before there were xa_conduct, xa_labels and xa_outcomes, which
# are counted by what they took beside the others in a run on another machine.)
QUICK, QUICK_PART, PROOFS = 8, 4, 111
# Processor seconds of an edit.
EDIT = 6
# Minutes at the end, in which processors are idle: if the program is built anew, and if all is
# kept.
LAST, LAST_KEPT = 3, 1


def seconds_of_squares():
    """In how many seconds of a processor they are added up here: in the shortest of some tries."""
    return min(timeit.repeat(lambda: sum(it * it for it in range(SQUARES)), timer=time.process_time, repeat=5, number=1))


def slowness():
    """How many times as long all takes here: a machine that took 2.7 times as long for the squares
    took 2.1 times as long for rt ci."""
    return (1 + 2 * seconds_of_squares() / SECONDS) / 3


def rounded(minutes):
    return f"{max(1, round(minutes))} minute{'s' * (round(minutes) > 1)}"


class Costs:
    def __init__(self, top):
        self.crates = crates_of(top).values()

    @functools.cached_property
    def sums(self):
        """Of each crate the sum of its files, as they stand when this is first asked."""
        return {it: it.sum() for it in self.crates}

    @functools.cached_property
    def left(self):
        """The crates that haven't passed here as they are."""
        return [it for it in self.crates if not os.path.isfile(f"{CACHE}/passed/{self.sums[it]}")]

    def quick(self):
        minutes = QUICK * slowness() / jobs_for(BYTES_A_JOB)
        return f"the quick part is done, and nothing is proved: at most about {rounded(minutes)}, {self.on()}"

    def whole(self):
        """By the lines of the crates that are left."""
        edits = EDIT * sum(len(edits_of(it)[0]) for it in self.left)
        parts = [self.part(self.left, self.crates) * PROOFS, edits / 60]
        minutes = ((QUICK_PART + sum(parts)) / jobs_for(BYTES_A_JOB) + (LAST if self.left else LAST_KEPT)) * slowness()
        kept = f"of {len(self.crates)} crates {len(self.crates) - len(self.left)} have passed here as they are"
        return f"the quick part is done, and the whole gate: about {rounded(minutes)}, {self.on()}; {kept}"

    def first(self):
        """The crate that all others rest on that are left, if there is one."""
        return next((it for it in self.left if all(it is one or it in one.below() for one in self.left)), None)

    @staticmethod
    def part(some, every):
        return sum(it.lines() for it in some) / max(1, sum(it.lines() for it in every))

    @staticmethod
    def on():
        """Of a machine that is busy now the free memory alone counts, not how long others make it
        wait."""
        return f"{jobs_for(BYTES_A_JOB)} at a time, if nothing else uses the {processors()} processors"

    def keep(self):
        """Notes which crates have passed, for the next estimate alone."""
        os.makedirs(f"{CACHE}/passed", exist_ok=True)
        for crate, sum in self.sums.items():
            if crate.sum() == sum:
                open(f"{CACHE}/passed/{sum}", "w", encoding="utf-8").close()
