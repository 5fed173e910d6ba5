"""Whether an edit is refused: by which goal of which function."""

from collections import Counter
from functools import partial

from .answers import answers_of, names_in, unasked, unoffered, without, without_one
from .edits import parted
from .places import Place
from .reports import LIMIT, errors, first_words, reports

REFUSED, THROUGH, BAD = "refused", "NOT REFUSED", "BAD EDIT"
# A proof names what the edit took away, and nothing else refuses it; nothing is known.
GONE, UNSURE = "NOT SHOWN", "NOT TRIED"
NO_LONGER = " (its answer no longer fits)"
# How many answers that don't fit are asked of, and how often they are left out, each time those just found.
TIMES = 4
# Where so few edits name a goal, both is asked of it in one check: a second one for them alone takes longer than a copy does.
FEW = 3


class Seat:
    """An edit in a check: what the check is to look at for its sake (path; None is the whole crate), and where it is made, if it is one of
    several of its function (place)."""

    def __init__(self, edit, path, place=None):
        self.edit, self.path, self.place = edit, path, place

    def is_copy(self):
        return bool(self.place and self.place.number)


class Trial:
    """A check with some edits made. Of some files of answers written by hand it reads what they become (readings)."""

    def __init__(self, prover, seats, readings, with_stubs=False):
        self.with_stubs = with_stubs
        self.said = prover.over_seed(seats, readings, with_stubs)
        self.found, self.wrong = reports(self.said.text), errors(self.said.text)
        self.others = [it for it in self.wrong if not it.is_of_answer()]
        # Answers that don't fit, each with its file, and whether it is false, or only names what is gone.
        self.misfits = {}
        for it in self.wrong:
            if it.is_of_answer():
                known = self.misfits.get((it.file, it.answer), False)
                self.misfits[it.file, it.answer] = known or not it.names_what_is_gone()

    def is_unread(self):
        """Whether it didn't get to the prover."""
        return not self.found and not self.misfits

    def is_told(self, file):
        """Whether it tells of each answer of a file if it fits."""
        return all(it.file != file for it in self.others)

    def false_answers(self, file):
        return [it for (at, it), is_false in self.misfits.items() if at == file and is_false]


class Question(Seat):
    """What a check asks of an edit: which goals of its function are open that have no answer written by hand, and which answers are
    false (goal is None). Or, of one goal, whether its answer is false (has_answer), or whether it is open without that: then nothing is asked of
    the function's other answers."""

    def __init__(self, inquiry, goal, has_answer, place):
        super().__init__(inquiry.edit, place.symbol, place)
        self.inquiry, self.goal, self.has_answer = inquiry, goal, has_answer

    def reads(self, text):
        """What the check reads of the function's answers."""
        names = [*self.edit.beside]
        if self.goal is not None:
            names += names_in(text) - {self.goal}
            text = text if self.has_answer else without_one(text, self.goal)
        text = unasked(text, names, self.place.symbol)
        return unoffered(text) if self.inquiry.can_be_copied else text


class Inquiry:
    """What is asked of an edit until something refuses it: an open goal without an answer; or a goal whose answer is false, and which
    is open without that too. Which one that is the edit may say (its goal): then both is asked first, one after the other or in one check
    (at_once), and all else only if that doesn't refuse it."""

    ALL = (None, True)

    def __init__(self, edit, symbol, prover, at_once=False):
        self.edit, self.symbol, self.prover = edit, symbol, prover
        self.can_be_copied = prover.can_copy(edit.function)
        # What the next check is to ask, by goal and whether it has its answer; and which answers are false, once all goals were asked of.
        self.left, self.false = [(edit.goal, False) if edit.goal else self.ALL], None
        if edit.goal and at_once and self.can_be_copied:
            self.left.append((edit.goal, True))

    def is_settled(self):
        return bool(self.edit.kind) or not self.left

    def hear(self, question, trial):
        """Judges the edit by the open goals of its own function, or says what is to be asked next."""
        place, goal, opened = question.place, question.goal, []
        # What was asked in vain, as if an answer is false of a goal that is proved without it.
        if self.is_settled() or (goal, question.has_answer) not in self.left:
            return
        self.left.remove((goal, question.has_answer))
        for report, goals in own_goals(place, trial.found):
            file, names = answers_of(report.name), [it.name for it in goals]
            known = [*self.prover.answered(place.original(file)), *self.edit.beside]
            new = [it for it in names if it not in known and trial.is_told(file)]
            if new:
                give(self.edit, REFUSED, place.original(told(report.path(), new)))
                return
            if file == place.answers:
                opened += names
        false = trial.false_answers(place.answers)
        if goal is None:
            note(self.edit, place.symbol, trial)
            self.false = false[:TIMES]
            self.left = [(it, False) for it in self.false]
        else:
            self.hear_of(goal, question.has_answer, goal in (false if question.has_answer else opened))

    def hear_of(self, goal, has_answer, is_so):
        """Hears of one goal whether its answer is false, or whether it is open without that (is_so)."""
        if is_so and (has_answer or self.false):
            give(self.edit, REFUSED, told(self.symbol.partition("::")[2], [goal]) + NO_LONGER)
        elif is_so:
            self.left = [(goal, True)]
        elif self.false is None:
            self.left = [self.ALL]


def told(path, goals):
    return f"{path}: {', '.join(goals)}"


def give(edit, kind, why):
    edit.kind, edit.why = kind, why[:400]


def own_goals(place, found):
    """The open goals of the edit's own function, by report. A goal is its function's by the place of what it is about, or by the
    function's line."""
    own = []
    for it in found:
        here = [goal for goal in it.noted if place.has(goal.file, goal.line)]
        if here or it.name == place.symbol and it.named:
            own.append((it, here or it.named))
    return own


def note(edit, symbol, trial):
    """Notes what a check of several says of an edit that none of its goals refuses."""
    own = [it for it in trial.found if it.name == symbol]
    # What a function's line says so is true whatever the bodies of the others are.
    edit.seems_proved = bool(own) and (own[0].is_proved or own[0].is_held_up)
    edit.was_over_stubs = trial.with_stubs


def try_all(edits, prover, whole):
    """Tries edits, and yields those that a check has just settled."""
    together, alone = ([], edits) if whole else parted(edits)
    alone += yield from try_together(together, prover)
    for it in alone:
        try_alone(it, prover, whole)
        yield [it]


def try_together(edits, prover):
    """Tries edits by checks of many, as long as there is something to ask. Yields those that a check has just settled, and returns those
    that are to be tried alone."""
    inquiries, left = [], []
    at_once = sum(bool(it.goal) for it in edits) <= FEW
    for it in edits:
        symbol = prover.symbol(it)
        if symbol:
            inquiries.append(Inquiry(it, symbol, prover, at_once))
        else:
            left.append(it)
    # First those that are asked of again, which then stand in the same places: there a check begins with what the one before it kept.
    inquiries.sort(key=lambda it: not it.edit.goal)
    while inquiries:
        lost = [it.inquiry for it in ask(seated(inquiries), prover)]
        settled = [it for it in inquiries if it in lost or it.is_settled()]
        inquiries = [it for it in inquiries if it not in settled]
        left += [it.edit for it in settled if not it.edit.kind]
        yield [it.edit for it in settled if it.edit.kind]
    return left


def seated(inquiries):
    """What a check can ask, each in its place: of a function the first question in itself, and further ones in copies of it. What there
    can be no copy for waits for another check."""
    asked, counts = [], Counter()
    for it in inquiries:
        function = it.edit.function
        for goal, has_answer in it.left:
            number = counts[function.key()]
            if number == 0 or it.can_be_copied:
                counts[function.key()] += 1
                asked.append(Question(it, goal, has_answer, Place(function, it.symbol, number)))
    return asked


def ask(asked, prover):
    """Asks by one check, and returns what is asked in vain. Where it doesn't get to the prover, what an error points at is left out, or
    else it is done by halves."""
    trial = trial_of(asked, prover)
    if not trial.is_unread():
        for it in asked:
            it.inquiry.hear(it, trial)
        return []
    places = [(it.file, it.line) for it in trial.others]
    wrong = [it for it in asked if any(it.place.has(file, line) for file, line in places)]
    if wrong and len(wrong) < len(asked):
        return [*wrong, *ask([it for it in asked if it not in wrong], prover)]
    inquiries = list(dict.fromkeys(it.inquiry for it in asked))
    if len(inquiries) <= 2:
        return asked
    halves = (inquiries[::2], inquiries[1::2])
    return [it for half in halves for it in ask([one for one in asked if one.inquiry in half], prover)]


def trial_of(asked, prover):
    readings = {it.place.answers: it.reads for it in asked}
    trial = Trial(prover, asked, readings, prover.has_stubs)
    if trial.is_unread() and prover.has_stubs:
        # It may be for what is left out that the crate doesn't compile.
        trial = Trial(prover, asked, readings)
        prover.has_stubs = trial.is_unread()
    return trial


def try_alone(edit, prover, whole=False):
    """Tries an edit alone: by a check of what it changes, with stubs and without, and, if that doesn't refuse it, by one of the whole
    crate."""
    path = None if whole or edit.seems_proved else edit.path()
    if path and edit.function and prover.has_stubs and not edit.was_over_stubs:
        for _ in try_together([edit], prover):
            pass
        if edit.kind:
            return
    for it in [path, None] if path else [None]:
        alone = Alone(edit, prover, it)
        if alone.judges():
            return
    said = alone.trial.said
    if said.status == 0:
        give(edit, THROUGH, "the crate is still proved with it" + ", without the answers that no longer fit" * bool(alone.left_out))
    elif said.status == 3 and LIMIT.search(said.text):
        give(edit, REFUSED, f"only by a limit of the prover, which says less of a contract: {LIMIT.search(said.text)[0]}")
    else:
        give(edit, UNSURE, f"its check ended with status {said.status}: {first_words(said.text)}")


class Alone:
    """Checks with one edit alone, of a path. The crate is proved without it, so any open goal is for its sake. Made again, a check reads
    none of the answers that didn't fit, so that their goals stand by themselves."""

    def __init__(self, edit, prover, path):
        self.edit, self.prover, self.path = edit, prover, path
        # Answers that are left out, each with its file, and whether it is false; errors of anything else.
        self.left_out, self.others = {}, []
        self.check()

    def check(self):
        names = {}
        for file, it in self.left_out:
            names.setdefault(file, set()).add(it)
        readings = {file: partial(without, names=some) for file, some in names.items()}
        self.trial = Trial(self.prover, [Seat(self.edit, self.path)], readings)
        self.others += self.trial.others

    def judges(self):
        """Whether the edit is settled by them."""
        unreadable = [it for it in self.others if it.of_front_end or it.is_unreadable()]
        if self.trial.said.status == 1 and unreadable:
            give(self.edit, BAD, f"it doesn't reach the prover: {unreadable[0].text}")
            return True
        for _ in range(TIMES):
            if not self.trial.misfits:
                break
            self.left_out.update(self.trial.misfits)
            self.check()
        if self.trial.said.status != 1:
            return False
        return self.judge_goals() or self.judge_errors()

    def judge_goals(self):
        """The verdict where goals are open."""
        opened = [it for it in self.trial.found if it.goals]
        for it in opened:
            goals, file = [goal.name for goal in it.goals], answers_of(it.name)
            new = [goal for goal in goals if (file, goal) not in self.left_out and self.trial.is_told(file)]
            false = [goal for goal in goals if self.left_out.get((file, goal))]
            if new or false:
                give(self.edit, REFUSED, told(it.path(), new or false) + NO_LONGER * (not new))
                return True
        if opened:
            goals = [goal.name for goal in opened[0].goals]
            give(self.edit, GONE, f"only an answer names what it took away, which says nothing of a contract: {told(opened[0].path(), goals)}")
        return bool(opened)

    def judge_errors(self):
        """The verdict where only proofs written by hand don't fit any more."""
        wrong = [*self.others, *(it for it in self.trial.wrong if it.is_of_answer())]
        false = [it for it in wrong if not it.names_what_is_gone()]
        if false:
            give(self.edit, REFUSED, f"a proof no longer fits: {false[0].text}")
        elif wrong:
            give(self.edit, GONE, f"only a proof names what it took away, which says nothing of a contract: {wrong[0].text}")
        return bool(wrong)
