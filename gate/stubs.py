"""What a check with edits leaves out of a crate that is known to be proved.

A function is proved by the contracts of those that it calls, whatever their bodies are and however these are proved. So in the copy
that the check of some functions reads, each other function has a body that does nothing and a proof that isn't one. Then no function that
calls one reads as proved; but each goal of its own is judged as ever."""

import contextlib
import os

from .answers import LEFT_OUT
from .crates import text_of

# What stands in the place of a body, and in that of a proof.
BODY = b" loop {} "
PROOF = """\
use Rattle.{crate}.proofs.{module}.Statement.{{statement}}

pub {name}_spec : {{M : Type 1}} → statement M
{name}_spec = {left_out}
"""
# What else is written of a proof by hand. Beside a whole proof nobody can use it; if it is there, rattle reads all that the check reads twice.
WRITTEN = ("Invariants", "Answers")


class Stubs:
    """The functions of a crate that can be left out, by file."""

    def __init__(self, crate, names):
        self.crate, self.names = crate.name, names
        cited = "\n".join(text_of(it) for it in crate.files(("proofs",)))
        self.functions = {}
        for file, found in names.functions.items():
            self.functions[file] = [it for it in found if self.can_be_left_out(it, cited)]

    def can_be_left_out(self, function, cited):
        module = self.names.module(function)
        is_cited = any(f"proofs.{module}.{it}" in cited for it in WRITTEN)
        return function.has_sure_name and not function.is_read_by_others and not is_cited

    def make(self, folder, edits):
        """Leaves out all functions but those of the edits, in a copy of the crate as it stands. Each line keeps its number."""
        kept = {it.function.key() for it in edits}
        for file, found in self.functions.items():
            left_out = [it for it in found if it.key() not in kept]
            self.empty(f"{folder}/{file}", left_out)
            for it in left_out:
                self.write_proof(folder, it)

    @staticmethod
    def empty(file, left_out):
        with open(file, "rb") as it:
            text = it.read()
        for it in sorted(left_out, key=lambda it: it.opens, reverse=True):
            lines = text[it.opens : it.ends].count(b"\n")
            text = text[: it.opens] + BODY + b"\n" * lines + text[it.ends :]
        with open(file, "wb") as it:
            it.write(text)

    def write_proof(self, folder, function):
        module = self.names.module(function)
        at = f"{folder}/{self.names.proof(function)}"
        os.makedirs(at, exist_ok=True)
        for it in WRITTEN:
            with contextlib.suppress(FileNotFoundError):
                os.remove(f"{at}/{it}.antt")
        with open(f"{at}/Proof.antt", "w", encoding="utf-8") as it:
            it.write(PROOF.format(crate=self.crate, module=module, name=function.name, left_out=LEFT_OUT))
