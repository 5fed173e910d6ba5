"""Where a check asks something of an edit: in the edited function itself, or in a copy of it that stands behind it."""

import os
import re

from .answers import answers_of
from .crates import text_of
from .reports import PLACE
from .stubs import WRITTEN


class Place:
    """The function itself (number 0) or a copy of it, which has a name of its own. What a check prints of a copy's lines is told as
    of a file of its own."""

    def __init__(self, function, symbol, number=0):
        self.function, self.number = function, number
        self.ending = f"_copy{number}" if number else ""
        self.symbol = symbol + self.ending
        self.file = function.file + f"@{function.name}{self.ending}" * bool(number)
        self.answers = answers_of(self.symbol)

    def has(self, file, line):
        return file == self.file and (self.number > 0 or line in self.function.lines)

    def original(self, text):
        """The text, where the copy is called as the function is."""
        return text.replace(f"{self.function.name}{self.ending}", self.function.name)


class Copies:
    """What copies of a crate's functions are made from. A function is copied with its clauses and with what is written of its proof by
    hand, so it is proved as the function is, and what doesn't fit in a copy doesn't fit for its edit's sake: nothing else names a
    function's goals, since rattle keeps them private, and one that calls itself is tried alone. Not copied is a method of a trait, nor a
    function whose proof is written whole or cited by others, nor one with a closure that has written proofs."""

    def __init__(self, crate, names, stubs):
        self.crate, self.names = crate, names
        self.keys = {it.key() for found in stubs.functions.values() for it in found}
        # Of each closure with proofs, the names that it has below the functions of its module.
        self.closures = [at.split("/fn/")[1].split("/") for at, _, _ in os.walk(f"{crate.folder}/proofs") if "/fn/" in at]

    def can_be_made(self, function):
        is_own = not function.owner or function.owner[0] == "impl" and not function.of_trait
        if not is_own or function.key() not in self.keys or any(function.name in it for it in self.closures):
            return False
        folder = f"{self.crate.folder}/{self.names.proof(function)}"
        files = os.listdir(folder) if os.path.isdir(folder) else []
        return all(os.path.splitext(it)[0] in WRITTEN for it in files)

    def make(self, folder, seats):
        """Makes these copies, each with its edit, in a copy of the crate, and returns where each line of their files is from."""
        origins = {}
        for file in {it.place.function.file for it in seats}:
            lines = text_of(f"{folder}/{file}").split("\n")
            origins[file] = [(file, at + 1) for at in range(len(lines))]
            # from the end on, so that no line that is still to be found has moved
            for it in sorted(seats, key=lambda it: it.place.function.lines.stop, reverse=True):
                if it.place.function.file == file:
                    copied, at = self.lines(it), it.place.function.lines.stop - 1
                    lines[at:at] = copied
                    origins[file][at:at] = [(it.place.file, number + 1) for number in range(len(copied))]
            with open(f"{folder}/{file}", "w", encoding="utf-8") as it:
                it.write("\n".join(lines))
        for it in seats:
            self.write_proofs(folder, it.place)
        return origins

    def lines(self, seat):
        """The function's lines with the edit, under the copy's name."""
        function = seat.place.function
        was = text_of(f"{self.crate.folder}/{function.file}").split("\n")
        numbers = range(function.lines.start - 1, function.lines.stop - 1)
        text = "\n".join(seat.edit.lines.get((function.file, it), was[it]) for it in numbers)
        return re.sub(rf"\bfn\s+{function.name}\b", f"fn {function.name}{seat.place.ending}", text, count=1).split("\n")

    def write_proofs(self, folder, place):
        proof, module = self.names.proof(place.function), self.names.module(place.function)
        own, to = f"{self.crate.folder}/{proof}", f"{folder}/{proof}{place.ending}"
        for name in os.listdir(own) if os.path.isdir(own) else []:
            os.makedirs(to, exist_ok=True)
            with open(f"{to}/{name}", "w", encoding="utf-8") as it:
                it.write(re.sub(rf"(?<=\.){re.escape(module)}(?=[.\s])", module + place.ending, text_of(f"{own}/{name}")))


def told_by_origins(text, origins):
    """What a check printed, with each place as it was before copies were made."""

    def told(found):
        lines, number = origins.get(found["file"], []), int(found["line"])
        if not 1 <= number <= len(lines):
            return found[0]
        file, line = lines[number - 1]
        return f"{file}:{line}{found[0][found.end('line') - found.start() :]}"

    return re.sub(PLACE, told, text) if origins else text
