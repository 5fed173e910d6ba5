"""Texts by chance: one of this repository with a few changes, and lines of words that mostly are right."""

#: What is put into a text.
PIECES = [
    b"\0",
    b"\xff",
    b"\r",
    b"\n",
    b";",
    b" ",
    b"-1",
    b"18446744073709551616",
    b"9223372036854775807",
    b"7:",
    b"TMONEPHASE",
    b"=",
    b"[",
    b"{",
    b"]",
    b'"',
    b"'",
    b"\\",
    b"\\u0000",
    b"#",
    b"\xe2\x82\xac",
    b"null",
    b"1e999",
]
THREADS, RMS, CODES = (
    ("0", "1", "2", "3"),
    ("0", "1"),
    ("0", "3", "4", "5", "6", "7", "8", "100", "101", "-3", "-4", "-7", "lost"),
)
CALLS = ("xa_open", "xa_close", "xa_start", "xa_end", "xa_prepare", "xa_commit", "xa_rollback", "xa_forget", "xa_recover")
FLAGS = ("", " TMSUCCESS", " TMFAIL", " TMONEPHASE", " TMJOIN", " TMSTARTRSCAN", " TMNOFLAGS", " TMSTARTRSCAN TMENDRSCAN")


def mutated(chance, text, others):
    """A text with some of its parts changed, doubled, cut, or taken from another."""
    text = bytearray(text)
    for _ in range(chance.choice((1, 1, 2, 4, 16))):
        at, length = chance.randrange(len(text) + 1), chance.choice((1, 1, 2, 8, 40, 400))
        kind, other = chance.randrange(6), chance.choice(others)
        if kind == 0 and text:
            text[at % len(text)] = chance.randrange(256)
        elif kind == 1:
            text[at:at] = chance.choice(PIECES) * chance.choice((1, 1, 1, 2, 5000))
        elif kind == 2:
            del text[at : at + length]
        elif kind == 3:
            text[at:at] = text[at : at + length] * chance.choice((1, 3, 30))
        elif kind == 4:
            begin = chance.randrange(len(other) + 1)
            text[at : at + length] = other[begin : begin + length]
        else:
            lines = bytes(text).split(b"\n")
            chance.shuffle(lines)
            text = bytearray(b"\n".join(lines))
    return bytes(text)


def a_transaction(chance):
    return f"{chance.choice((1, 1, 1, 2, 2, 3)):016x}{chance.choice((1, 1, 1, 2, 3, 4, 9)):016x}"


def a_branch(chance):
    return f"7:{a_transaction(chance)}:{int(chance.choice(THREADS)):08x}{int(chance.choice(RMS)):08x}"


def a_request(chance):
    """A request of a driver, most of whose words are right."""
    thread, rm, gtrid, call = chance.choice(THREADS), chance.choice(RMS), a_transaction(chance), chance.choice(CALLS)
    named = {"xa_open": "", "xa_close": "", "xa_recover": " 32"}.get(
        call, " " + chance.choice((gtrid, gtrid, a_branch(chance)))
    )
    some = " ".join(a_branch(chance) for _ in range(chance.choice((0, 0, 1, 3))))
    number = chance.choice(CODES[:-1])
    return chance.choice(
        (
            f"begin {thread}",
            f"begin {thread}",
            f"issue {thread} {rm} {call}{named}{chance.choice(FLAGS)}",
            f"answer {thread} {rm} {call}{named} 0",
            f"answer {thread} {rm} {call}{named} {number}",
            f"answer {thread} {rm} xa_recover {len(some.split())} {some}".rstrip(),
            f"waiting {thread} {rm}",
            f"decide {gtrid} commit",
            f"decide {gtrid} {a_transaction(chance)} rollback",
            f"claim {gtrid}",
            f"settle {gtrid}",
            f"abandon {gtrid}",
            f"done {gtrid}",
            f"resolve {rm}",
            f"resolve-open {rm}",
            f"owed {rm}",
            f"crash line {thread} {rm}",
            f"crash rm {rm}",
            "status",
        )
    )


def a_move(chance):
    """A move of a conducted driver, most of whose words are right."""
    thread, rm, answers = (
        chance.choice(THREADS[1:]),
        chance.choice(RMS),
        " ".join(chance.choice(("0", "0", *CODES)) for _ in range(chance.choice((1, 2, 2)))),
    )
    some = " ".join(a_branch(chance) for _ in range(chance.choice((0, 0, 1, 3))))
    return chance.choice(
        (
            f"start {thread}",
            f"join {thread} {rm}",
            f"join {thread} 0 1",
            f"commit {thread}",
            f"rollback {thread}",
            f"tell {thread} {answers}",
            f"tell {thread} {answers}",
            f"tell {thread} 0 0",
            f"recover {rm}",
            f"page {rm} {some}".rstrip(),
            f"page {rm}",
            f"end {rm} {chance.choice(CODES)}",
            "due",
            f"fate {a_transaction(chance)}",
        )
    )


def lines_of(chance, a_line, begun=()):
    """A session of such lines, several of which may stand on one."""
    lines = [
        *begun,
        *(
            ";".join(a_line(chance) for _ in range(chance.choice((1, 1, 1, 2, 5))))
            for _ in range(chance.choice((1, 10, 40, 200)))
        ),
    ]
    return "\n".join(lines).encode() + b"\n"
