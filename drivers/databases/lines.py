"""Writes random requests, right and wrong, to the coordinator. Each line gets exactly one reply, and after what is refused the
session stands as before: as much has happened, the same calls wait, the same is owed."""

import collections
import random
import subprocess
import sys

CALLS = ["xa_open", "xa_close", "xa_start", "xa_end", "xa_prepare", "xa_commit", "xa_rollback", "xa_forget", "xa_recover"]
FLAGS = ["", " TMNOFLAGS", " TMJOIN", " TMSUCCESS", " TMFAIL", " TMONEPHASE", " TMSTARTRSCAN", " TMENDRSCAN", " TMSUSPEND",
         " TMSTARTRSCAN TMENDRSCAN", " TMENDRSCAN TMSTARTRSCAN", " TMFAIL TMFAIL"]
CODES = [0, 0, 0, 0, 3, 4, 5, 6, 7, 8, 100, 102, 107, 108, -3, -4, -5, -6, -7, -8, -9, 99999999999]
FOREIGN = ["-1:00:00", "3:0a:0b", "7::", "x:00:00", "7:0A:0b", "7:00:00:00"]
ODD = ["", " ", "begin", "begin  0", "begin 0 ", " begin 0", "begin -1", "begin 00", "begin 99999999999", "issue 0 0", "decide", "done",
       "\t", "quit now", "status up", "é" * 3, "\udcff\udcfe", "x" * 5000, "crash", "crash tm", "BEGIN 0"]
#: What is asked after each line: how the session stands.
LOOKS = ["status", *(f"waiting {thread} {rm}" for thread in range(2) for rm in range(2)), "owed 0", "owed 1"]


class Requests:
    """Requests by chance, which know the last transactions."""

    def __init__(self, rng):
        self.rng = rng
        self.gtrids = ["0" * 32, "f" * 32, "0" * 15 + "1" + "0" * 15 + "1"]

    def branch(self):
        gtrid = self.rng.choice(self.gtrids)
        if self.rng.random() < 0.6:
            return gtrid
        if self.rng.random() < 0.1:
            return self.rng.choice(FOREIGN)
        return f"7:{gtrid}:{self.rng.randrange(2):08x}{self.rng.randrange(2):08x}"

    def call(self):
        name = self.rng.choice(CALLS if self.rng.random() < 0.2 else CALLS[2:])
        flags = self.rng.choice(FLAGS) if self.rng.random() < 0.2 else " TMSUCCESS" if name == "xa_end" else ""
        if name in ("xa_open", "xa_close"):
            return name + flags
        if name == "xa_recover":
            return f"{name} {self.rng.choice([0, 1, 5, 64, -1, 10 ** 18, 10 ** 30])}{self.rng.choice(FLAGS)}"
        return f"{name} {self.branch()}{flags}"

    def answer_to(self, thread, rm, waits):
        """An answer to the call that waits first, mostly a fitting one; or a call, if nothing waits."""
        words = waits.split(" ")[1:]
        if not words:
            return f"issue {thread} {rm} xa_open"
        if words[0] == "xa_recover":
            xids = [f"7:{self.rng.choice(self.gtrids)}:{self.rng.randrange(2):08x}{rm:08x}" for _ in range(self.rng.randrange(3))]
            return " ".join([f"answer {thread} {rm} xa_recover {len(xids)}", *xids])
        branch = [word for word in words[1:] if ":" in word]
        code = self.rng.choice(CODES) if self.rng.random() < 0.3 else 0
        return " ".join([f"answer {thread} {rm} {words[0]}", *branch, str(code)])

    def any(self, stands):
        """A request, for a session that stands so."""
        rng = self.rng
        thread, rm = rng.randrange(2), rng.randrange(2)
        if rng.random() < 0.02:
            thread, rm = rng.choice([(2, 0), (0, 2), (9, 9)])
        gtrid = rng.choice(self.gtrids)
        several = " ".join(rng.choice(self.gtrids) for _ in range(rng.randrange(1, 4)))
        ways = [
            (5, lambda: f"begin {thread}"),
            (30, lambda: f"issue {thread} {rm} {self.call()}"),
            (30, lambda: self.answer_to(thread % 2, rm % 2, stands[1 + 2 * (thread % 2) + rm % 2])),
            (3, lambda: f"answer {thread} {rm} {rng.choice(CALLS)} {self.branch()} {rng.choice(CODES)}"),
            (7, lambda: f"decide {rng.choice([gtrid, gtrid, several])} {rng.choice(['commit', 'rollback', 'maybe'])}"),
            (6, lambda: f"{rng.choice(['claim', 'settle', 'abandon'])} {gtrid}"),
            (3, lambda: f"done {several}"),
            (6, lambda: f"{rng.choice(['resolve', 'resolve-open', 'owed'])} {rm}"),
            (6, lambda: rng.choice([f"crash line {thread} {rm}", f"crash rm {rm}", f"crash {thread} {rm}"])),
            (3, lambda: f"waiting {thread} {rm}"),
            (5, lambda: self.torn(rng.choice([*ODD, self.call(), f"decide {gtrid} commit", f"begin {thread}"]))),
        ]
        return rng.choices([way for _, way in ways], [weight for weight, _ in ways])[0]()

    def torn(self, text):
        """A text with a letter left out or doubled now and then."""
        return "".join(self.rng.choice(["", letter, letter, letter, letter, letter, letter, letter * 2]) for letter in text)


class Session:
    """A coordinator's process, asked line by line."""

    def __init__(self, command):
        self.process = subprocess.Popen(command, stdin=subprocess.PIPE, stdout=subprocess.PIPE, stderr=subprocess.PIPE)
        if not self.line().startswith("restarted "):
            sys.exit("lines: the coordinator doesn't begin as it should")

    def line(self):
        line = self.process.stdout.readline()
        if not line.endswith(b"\n"):
            sys.exit(f"lines: no reply; {self.process.stderr.read().decode()[:2000]}")
        return line[:-1].decode()

    def ask(self, *lines):
        """The replies to lines that are written at once."""
        self.process.stdin.write("".join(line + "\n" for line in lines).encode("utf-8", "surrogateescape"))
        self.process.stdin.flush()
        return [self.line() for _ in lines]

    def end(self, is_killed):
        if is_killed:
            self.process.kill()
        else:
            self.ask("quit")
        for pipe in (self.process.stdin, self.process.stdout, self.process.stderr):
            pipe.close()
        self.process.wait()


def run(world, lines, seed):
    """Prints how many replies of each kind there were. How many were wrong."""
    rng = random.Random(seed)
    requests, replies, sessions, wrong = Requests(rng), collections.Counter(), 1, 0
    session = Session(world.command(2, f"{world.home}/lines.db"))
    stands = session.ask(*LOOKS)
    for _ in range(lines):
        text = requests.any(stands)
        reply, *behind = session.ask(text, *LOOKS)
        words = reply.split(" ")
        is_refused = words[0] in ("refused", "error")
        replies[" ".join(words[:3]) if is_refused else words[0]] += 1
        if is_refused and words[:2] != ["refused", "15"] and behind != stands:
            wrong += 1
            print(f"lines: changed by what was refused: {text} -> {reply}: {stands} -> {behind}")
        stands = behind
        if words[0] == "begun":
            requests.gtrids = requests.gtrids[-12:] + [words[1]]
        if rng.random() < 0.0005 or stands[0].startswith("status down") or words[:2] == ["refused", "14"] and text == "begin 0":
            session.end(rng.random() < 0.5)
            session = Session(world.command(2, f"{world.home}/lines.db"))
            stands = session.ask(*LOOKS)
            sessions += 1
    session.end(False)
    print(f"lines: {lines} lines in {sessions} sessions, seed {seed}; replies:")
    for name, count in sorted(replies.items()):
        print(f"lines: {count} {name}")
    return wrong
