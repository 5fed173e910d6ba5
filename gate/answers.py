"""Files of answers written by hand (Answers.antt), of which a check with edits reads only some."""

import os
import re

from .crates import text_of


def answers_of(symbol):
    """The file of the answers for a function of this whole name."""
    return f"proofs/{symbol.partition('::')[2].replace('::', '/')}/Answers.antt"


def parts(text):
    """Each line that begins something, with those that go on with it, and the name that it is of. A bracket at its beginning ends
    what is above it."""
    found = [("", [])]
    for line in text.split("\n"):
        if line[:1].strip(" }])"):
            words = line.removeprefix("abbrev ").removeprefix("pub ").split()
            found.append((words[0], []))
        found[-1][1].append(line)
    return found


def names_in(text):
    """The goals that have an answer there."""
    return {name for name, lines in parts(text) if lines[:1] and lines[0].startswith("pub ")}


def without(text, names):
    """The file without the answers of these names."""
    return "\n".join(it for name, lines in parts(text) if name not in names for it in lines)


# Names of the cases of a goal, which there are only if its answer tells them apart.
CASES = re.compile(r"use \S+\.Goals\.\{")


def without_one(text, name):
    """The file without the answer of this name, nor the names of any cases: for a check that asks nothing of the other answers."""
    kept = [lines for of, lines in parts(text) if of != name and not CASES.match("\n".join(lines))]
    return "\n".join(it for lines in kept for it in lines)


# Beside this hole rattle offers no text for a goal that is open: that takes a run of antt of its own, some ten seconds of a check.
UNOFFERED = "unoffered : Unit {0}\nunoffered = ?\n"


def unoffered(text):
    return f"{text}\n{UNOFFERED}"


# In the place of an answer, or of a proof, of which a check asks nothing: a name that nothing has. Like a hole it isn't admitted, and nothing searches
# for its goal; but of a hole rattle prints the goal, which can take seconds.
LEFT_OUT = "left_out_of_this_check"
WORD = re.compile(r"[\w-]+")


def unasked(text, names, symbol):
    """The file of this function's answers, where nothing is asked of these goals. One that the other answers cite is a hole, which rattle takes by
    its signature."""
    found, left = parts(text), dict.fromkeys(names)
    cited = {it for name, lines in found if name not in names for line in lines for it in WORD.findall(line)}
    kept = []
    for name, lines in found:
        if name not in names or lines[0].startswith("pub "):
            kept += lines
        elif name in left:
            del left[name]
            kept.append(f"{name} = {'?' if name in cited else LEFT_OUT}")
    return with_goals("\n".join(kept), left, symbol)


def with_goals(text, names, symbol):
    """The file with these goals too, of which nothing is asked."""
    if not names:
        return text
    crate, _, path = symbol.partition("::")
    goals = f"use Rattle.{crate}.proofs.{path.replace('::', '.')}.Goals as "
    # Rattle takes one name of a module in a file.
    known = re.search(re.escape(goals) + r"(\S+)", text)
    head, goal = ([], known[1]) if known else ([f"{goals}goal"], "goal")
    return "\n".join([*head, text, *(f"pub {it} : {goal}.{it}\n{it} = {LEFT_OUT}" for it in names)])


def rewrite(file, becomes):
    """Changes the text of a file of answers, which is empty where there is none. One with nothing to read goes."""
    text = ""
    if os.path.isfile(file):
        text = text_of(file)
        os.remove(file)
    text = becomes(text)
    if names_in(text) or UNOFFERED in text:
        os.makedirs(os.path.dirname(file), exist_ok=True)
        with open(file, "w", encoding="utf-8") as it:
            it.write(text)
