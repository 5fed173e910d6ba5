"""What a check prints, read."""

import collections
import re

PLACE = r"(?:\./)?(?P<file>[^\s:]+):(?P<line>\d+):\d+: "
FUNCTION = re.compile(r"(?P<what>fn|impl|struct|enum|cycle) (?P<name>\S+): (?P<words>.*)")
GOAL = re.compile(rf"note: {PLACE}.*? \(`(?P<goal>\S+)`\)")
ERROR = re.compile(rf"{PLACE}error\b(?P<code>\[[\w-]+\])?: (?:`(?P<answer>[^`\s]+)`: )?(?P<words>.*)")
OPEN = re.compile(r"did not prove ((?:`[^`]*`(?:, | and )?)+)")
# A proof that names what is no longer there.
TAKEN = re.compile(r"has no field|is not in scope|is no name|has no `|was not admitted")
# Answers that weren't checked, since they cite one that doesn't fit.
UNCHECKED = re.compile(r"\d+ declarations? that depends? on `(?P<answer>[^`\s]+)`, which was rejected")
# A text that the prover can't read, beside one that it finds false.
UNREADABLE = re.compile(r"is not in scope|has no field|is no name|operand is missing|expected the end|cannot continue")
LIMIT = re.compile(
    r"antt ran out of (?:stack|the (?:steps|memory) that the check of one declaration may (?:take|use))"
    r"|(?:outgrew the memory limit|stopped at the step limit) \("
)

# A goal that is open, and the place of what it is about, if one was printed.
Goal = collections.namedtuple("Goal", "name file line")


class Report:
    """What was said of a function, or of another item: its line, and the open goals that stand before it."""

    def __init__(self, found, noted):
        self.name, self.words, self.is_function = found["name"], found["words"], found["what"] == "fn"
        self.is_proved = self.words == "proved"
        self.is_held_up = self.words.startswith("no proof: it calls ")
        self.noted = [] if self.is_proved else noted
        opened = OPEN.search(self.words)
        names = re.findall(r"`([^`]*)`", opened[1]) if opened else []
        # Those that its line names, where they weren't noted, have no place.
        self.named = [Goal(it, "", 0) for it in names]
        self.goals = self.noted + [it for it in self.named if it.name not in {one.name for one in self.noted}]

    def path(self):
        return self.name.partition("::")[2]


class Error:
    """An error, with all the lines that it is printed on."""

    def __init__(self, found):
        self.file, self.line, self.unchecked = found["file"], int(found["line"]), UNCHECKED.match(found["words"])
        self.answer = self.unchecked["answer"] if self.unchecked else found["answer"]
        self.of_front_end, self.text = bool(found["code"]), found[0]

    def is_of_answer(self):
        return bool(self.answer) and self.file.endswith("/Answers.antt")

    def names_what_is_gone(self):
        return self.file.startswith("proofs/") and bool(self.unchecked or TAKEN.search(self.text))

    def is_unreadable(self):
        """Whether it is about a text of src/ or specs/ that can't be read, where a false one reads well."""
        if not self.file.startswith(("src/", "specs/")) or self.of_front_end:
            return False
        return not self.answer or bool(UNREADABLE.search(re.sub(r"`[^`]*`", "", self.text)))


def reports(text):
    found, goals = [], []
    for line in text.split("\n"):
        of, goal = FUNCTION.fullmatch(line), GOAL.match(line)
        if of:
            found.append(Report(of, goals))
            goals = []
        elif goal:
            goals.append(Goal(goal["goal"], goal["file"], int(goal["line"])))
    return found


def errors(text):
    found, last = [], None
    for line in text.split("\n"):
        error = ERROR.match(line)
        if error:
            last = Error(error)
            found.append(last)
        elif last and line.startswith("  "):
            last.text += f" {line.strip()}"
        else:
            last = None
    return found


def first_words(text):
    """What a check that judged nothing said, in a line."""
    lines = text.rstrip("\n").split("\n")
    return next((it.text for it in errors(text)), lines[-1])[:300]
