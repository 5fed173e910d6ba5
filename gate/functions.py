"""Where the functions of a file stand."""

import json
import os
import re
import subprocess

from .crates import text_of

DECLARED = re.compile(r"(?m)^\s*(?:pub(?:\(.*?\))? )?(?:struct|enum) (\w+)")
PAIRS = {"(": ")", "[": "]", "{": "}"}


class Function:
    """A function with a body, and which bytes and lines of its file it takes."""

    def __init__(self, file, owner, modules, rows, words, places):
        start, at, opens, close = places
        self.file, self.name, self.owner = file, words[at + 1], owner
        self.modules = [*modules_of(file), *modules]
        self.begins, self.opens, self.ends = rows[at][1], rows[opens][2], rows[close - 1][1]
        self.lines = range(rows[start][0], rows[close - 1][0] + 1)
        before = words[start:at]
        # Others may rest on the body of a const fn, and of a function in a cycle of calls.
        self.is_read_by_others = "const" in before or "cycle" in before
        self.of_trait = owner[:1] == ["impl"] and "for" in owner
        # A check has a name of its own for a trait of what is named by a path.
        self.has_sure_name = ":" not in arguments(self.trait())

    def key(self):
        return self.file, self.begins

    def parameters(self):
        """What the impl that it stands in declares in angle brackets."""
        head = self.owner[1:]
        return head[: past_angles(head)] if head[:1] == ["<"] else []

    def trait(self):
        head = self.owner[1 + len(self.parameters()) :]
        return head[: head.index("for")] if self.of_trait else []

    def of(self):
        """The type that it is a method of, as the name that a check prints has it, and whether that is for any of its parameters."""
        parameters, rest = self.parameters(), self.trait()
        head = self.owner[1 + len(parameters) + len(rest) + self.of_trait :]
        if "where" in head:
            head = head[: head.index("where")]
        words = [it for it in head if re.match(r"[A-Za-z_]", it)]
        if not rest and any(it not in parameters for it in words[1:]):
            return "+".join(words), False
        rest = [it for it in rest if re.match(r"[A-Z]", it) and it not in declared(parameters)]
        return "".join(words[:1] + rest), True

    def guess(self):
        """The end of the name that a check prints for it."""
        of = self.of()[0] if self.owner else "::".join(self.modules[-1:])
        return f"{of}::{self.name}".removeprefix("::")

    def path(self, homes):
        """Its path below the crate, as far as that can be told from texts: where the crate's types are declared (homes). A method
        stands with its type, but where it is one for some of its parameters alone."""
        if not self.owner:
            return "::".join([*self.modules[:-1], self.guess()])
        of, is_for_any = self.of()
        return "::".join([*(homes.get(of, self.modules) if is_for_any else self.modules), self.guess()])

    def symbol(self, symbols):
        """Its whole name among those that a check printed, or None if that isn't sure."""
        found = [it for it in symbols if f"::{it}".endswith(f"::{self.guess()}")]
        if len(found) > 1:
            path = "::".join([*self.modules, ""])
            found = [it for it in found if it.partition("::")[2].startswith(path)]
        return found[0] if len(found) == 1 else None


class Names:
    """The functions of a crate, by file, and what rattle calls them as far as texts tell. If it calls one otherwise, an edit of that one
    is tried alone."""

    def __init__(self, kit, crate):
        self.crate = crate.name
        paths = {os.path.relpath(it, crate.folder): it for it in crate.files(("src",)) if it.endswith(".rt")}
        self.homes = homes_of({file: text_of(it) for file, it in paths.items()})
        self.functions = {file: functions(kit, crate.folder, file) for file in paths}

    def symbol(self, function):
        return f"{self.crate}::{function.path(self.homes)}"

    def module(self, function):
        """The module of its proof, below the crate's proofs."""
        return function.path(self.homes).replace("::", ".")

    def proof(self, function):
        """The folder of what is written of its proof, below the crate."""
        return f"proofs/{self.module(function).replace('.', '/')}"


def modules_of(file):
    modules = os.path.splitext(file)[0].split("/")[1:]
    return modules[:-1] if modules[-1:] in (["lib"], ["main"], ["mod"]) else modules


def homes_of(texts):
    """The module of each type that is declared in one alone of the files (texts, by file)."""
    homes = {}
    for file, text in texts.items():
        for it in DECLARED.findall(text):
            homes[it] = None if it in homes else modules_of(file)
    return {it: modules for it, modules in homes.items() if modules is not None}


def arguments(path):
    """What stands in the angle brackets of a path."""
    return path[path.index("<") + 1 :] if "<" in path else []


def declared(parameters):
    """The names that parameters in angle brackets have, without what they are bound by."""
    found, depth = set(), 0
    for before, it in zip(["", *parameters], parameters):
        if depth == 1 and before in ("<", ","):
            found.add(it)
        depth += (it == "<") - (it == ">")
    return found


def past_angles(words):
    depth = 0
    for at, it in enumerate(words):
        depth += (it == "<") - (it == ">")
        if not depth:
            return at + 1
    return len(words)


def after(words, at):
    """The place after the token, or after the bracket that it opens."""
    stack = []
    while at < len(words):
        if words[at] in PAIRS:
            stack.append(PAIRS[words[at]])
        elif stack and words[at] == stack[-1]:
            stack.pop()
        at += 1
        if not stack:
            break
    return at


def opening(words, at, end):
    """The place of the bracket that opens an item's body, or of the semicolon in its place."""
    while at < end and words[at] not in ("{", ";"):
        at = after(words, at) if words[at] in "([" else at + 1
    return at


def functions(kit, folder, file):
    """The functions of a crate's file, from rattle's own tokens: its clauses and ghost items are none of these."""
    words = [f"{kit}/bin/rattle", "fmt", "--tokens", f"{folder}/{file}"]
    ran = subprocess.run(words, capture_output=True, text=True, stdin=subprocess.DEVNULL)
    rows = [it.split(" ", 4) for it in ran.stdout.split("\n")[1:] if it]
    rows = [(int(line), int(a), int(b), kind, json.loads(it)) for line, a, b, kind, it in rows]
    rows = [it for it in rows if it[3] in ("Code", "Literal")]
    tokens = [it[4] if it[3] == "Code" else "" for it in rows]
    found = []

    def items(at, end, owner, modules):
        start = at
        while at < end:
            word = tokens[at]
            if word in ("fn", "impl", "trait", "mod"):
                opens = opening(tokens, at + 1, end)
                close = after(tokens, opens)
                if opens < end and tokens[opens] == "{":
                    if word == "fn":
                        found.append(Function(file, owner, modules, rows, tokens, (start, at, opens, close)))
                    else:
                        is_mod = word == "mod"
                        inside = owner if is_mod else tokens[at:opens]
                        items(opens + 1, close - 1, inside, [*modules, tokens[at + 1]] if is_mod else modules)
                at = start = close
            elif word in ("{", ";"):
                at = start = after(tokens, at)
            else:
                at = after(tokens, at)

    items(0, len(tokens), [], [])
    return found
