"""The files of crates/NAME/edits/."""

import os
import re

from .crates import text_of
from .functions import functions

NAME = re.compile(r"[A-Za-z0-9_-][A-Za-z0-9_.-]*\.edit")


class Edit:
    """What one file changes, and what came of it (kind and why, once that is known)."""

    def __init__(self, path):
        self.name = os.path.basename(path).removesuffix(".edit")
        self.text, self.lines, self.function, self.bad = text_of(path), {}, None, None
        self.kind, self.why, self.seems_proved, self.was_over_stubs = None, "", False, False
        # The goal that refuses it, where it says so, if that has an answer written by hand; and goals that are open too.
        self.goal = next(iter(self.named("goal")), None)
        self.beside = self.named("beside")

    def named(self, word):
        """The names that its lines of this word have."""
        return [it.removeprefix(f"{word}: ").strip() for it in self.text.split("\n") if it.startswith(f"{word}: ")]

    def read(self, kit, crate, found):
        """Finds which lines it changes, and the one function in whose body they are, if there is one. found keeps the functions of
        the files that were read."""
        was, texts, self.bad = self.edited(crate)
        if self.bad:
            return
        holders = set()
        for file, text in texts.items():
            at = 0
            for number, (one, other) in enumerate(zip(was[file].split("\n"), text.split("\n"))):
                if one != other:
                    self.lines[file, number] = other
                    holders.add(holder(kit, crate, found, file, at, one, other))
                at += len(one.encode()) + 1
        if not self.lines:
            self.bad = "it changes nothing"
        elif len(holders) == 1:
            self.function = holders.pop()

    def edited(self, crate):
        """The texts of the files before and after it, or why it doesn't apply."""
        file, old, was, texts = None, None, {}, {}
        for line in self.text.split("\n"):
            if line.startswith("file: "):
                file = line.removeprefix("file: ").strip()
                if os.path.normpath(file) != file or not file.startswith(("src/", "specs/", "proofs/")):
                    return was, texts, f"{file} is no file of src/, specs/ or proofs/"
                if not os.path.isfile(f"{crate.folder}/{file}"):
                    return was, texts, f"there is no file {file}"
            elif line.startswith("old: "):
                old = line.removeprefix("old: ")
            elif line.startswith("new:"):
                new = line.removeprefix("new:").removeprefix(" ")
                if not file or not old:
                    return was, texts, "a line 'new:' has no line 'file:' or 'old:' before it"
                if file not in texts:
                    texts[file] = was[file] = text_of(f"{crate.folder}/{file}")
                count = texts[file].count(old)
                if count != 1:
                    return was, texts, f"an 'old:' text is in {file} {count} times, and not once"
                texts[file], old = texts[file].replace(old, new), None
        return was, texts, None if texts else "it has no lines 'old:' and 'new:'"

    def path(self):
        """What of the crate a check of it alone looks at: the function, or else the module; None for all."""
        if self.function:
            return self.function.guess()
        files = {file for file, _ in self.lines}
        modules = re.sub(r"^src/|(/mod)?\.rt$", "", files.pop()).split("/") if len(files) == 1 else []
        return None if modules[:1] in ([], ["lib"], ["main"]) else "::".join(modules)


def holder(kit, crate, found, file, at, one, other):
    """The function in whose body, or as a mut of whose parameter, a line that begins at this byte changes; None if in none."""
    if not file.endswith(".rt"):
        return None
    if file not in found:
        found[file] = functions(kit, crate.folder, file)
    head = os.path.commonprefix([one, other])
    rest, new = one[len(head) :], other[len(head) :]
    tail = len(os.path.commonprefix([rest[::-1], new[::-1]]))
    first = at + len(head.encode())
    last = first + len(rest[: len(rest) - tail].encode())
    is_mut = new[: len(new) - tail] in ("mut ", " mut") and first == last
    for it in found[file]:
        if (it.begins if is_mut else it.opens) <= first and last <= it.ends:
            return it
    return None


def edits_of(crate):
    """The edits of a crate, and the files of its folder that are none."""
    folder = f"{crate.folder}/edits"
    names = sorted(os.listdir(folder)) if os.path.isdir(folder) else []
    good = [it for it in names if NAME.fullmatch(it) and os.path.isfile(f"{folder}/{it}")]
    return [Edit(f"{folder}/{it}") for it in good], [it for it in names if it not in good and not it.endswith(".md")]


def parted(edits):
    """The edits that checks may try together, and those that are tried alone."""
    alone = [it for it in edits if it.function is None or it.function.is_read_by_others]
    return [it for it in edits if it not in alone], alone
