"""Moments within a transaction of the driver in Python, at which a story has something done,
once."""


def before_a_move(xa, verb, do):
    """Before the next move of this verb is put on its way to the coordinator: with `tell` before it
    hears of the votes."""
    coordinator = xa._session.coordinator
    coordinator.post = before(coordinator.post, verb, [do])


def before_a_call(xa, name, do):
    """Before the next call of this name is made at a database, on a connection that is there."""
    left = [do]
    for connection in connections(lines(xa)):
        connection.do, connection.send = before(connection.do, name, left), before(connection.send, name, left)


def lines(xa):
    """The lines of the session's threads."""
    return [line for thread in xa._session.threads.all_of_them for line in thread.lines]


def connections(some):
    """The connections that these lines have."""
    return [line.connection for line in some if line.connection is not None]


def beside(xa, line):
    """The numbers of the other lines' connections to the same database."""
    return [one.number for one in connections(other for other in lines(xa) if other.rm is line.rm and other is not line)]


def behind_the_decision(xa, do):
    """Once the coordinator has told that a transaction commits, and before a database hears of
    it."""
    session, left = xa._session, [do]
    note = session.note_decision

    def decided(*words):
        note(*words)
        if left:
            left.pop()()

    session.note_decision = decided


def before(step, text, left):
    def stepped(words, *more, **options):
        if str(words).startswith(text) and left:
            left.pop()()
        return step(words, *more, **options)

    return stepped
