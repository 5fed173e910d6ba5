"""The readers of the program xatm: scenarios and jobs, a driver's requests and moves, logs, and lines for a log."""

import glob
import json
import os
import random
import resource
import subprocess

from fuzzers.chance import a_move, a_request, lines_of, mutated

TOP = os.path.dirname(os.path.dirname(os.path.dirname(os.path.realpath(__file__))))
#: Seconds of a processor that an input may take, and seconds that may go by meanwhile on a machine
#: with much to do.
MOST, MOST_ELAPSED = 20, 600
#: How the program ends, with what README says of each.
STATUSES = range(9)
OPENED = [f"issue {thread} {rm} xa_open;answer {thread} {rm} xa_open 0" for thread in range(4) for rm in range(2)]
RECOVERED = ["recover 0", "page 0", "recover 1", "page 1", "start 1", "start 2", "start 3"]


def read(path):
    with open(path, "rb") as it:
        return it.read()


def asked_in(pattern):
    """What the sessions of such names ask."""
    return [
        b"\n".join(it[2:] for it in read(name).splitlines() if it.startswith(b"> ")) + b"\n"
        for name in sorted(glob.glob(f"{TOP}/tests/{pattern}"))
    ]


class Program:
    def __init__(self, program, folder, seed):
        self.program, self.chance, self.folder = program, random.Random(seed), folder
        self.scenarios = [
            read(it) for it in sorted(glob.glob(f"{TOP}/examples/*.toml") + glob.glob(f"{TOP}/tests/refused/*.toml"))
        ]
        self.sessions, self.conducted = asked_in("sessions/[!m]*"), asked_in("sessions/moves-*")
        self.logs = [read(it) for it in (f"{TOP}/tests/logs/version-1", f"{TOP}/tests/logs/last-incarnation")] + [
            self.with_rows()
        ]
        self.lines = (
            b"name shop-1\nrm 0 bank\nincarnation 7\n00000000000000070000000000000001 1 "
            b"7:73686f702d3100000000000000070000000000000001:0000000000000000\nend\n"
        )

    def runs(self, words, given=b""):
        """What the program prints, and its status: none if it had to be killed."""
        try:
            ran = subprocess.run(
                [self.program, *words],
                input=given,
                stdout=subprocess.PIPE,
                stderr=subprocess.PIPE,
                cwd=self.folder,
                timeout=MOST_ELAPSED,
                preexec_fn=lambda: resource.setrlimit(resource.RLIMIT_CPU, (MOST, MOST)),
                check=False,
            )
        except subprocess.TimeoutExpired:
            return b"", None
        return ran.stdout, ran.returncode

    def with_rows(self):
        """The bytes of a log with rows."""
        self.runs(["run", "--log", "rows.db", f"{TOP}/examples/crash-after-decision.toml"])
        return read(f"{self.folder}/rows.db")

    def put(self, name, text):
        with open(f"{self.folder}/{name}", "wb") as it:
            it.write(text)

    def clear(self, *names):
        for it in names:
            for end in ("", "-wal", "-new", "-new-wal"):
                if os.path.exists(f"{self.folder}/{it}{end}"):
                    os.remove(f"{self.folder}/{it}{end}")

    # Each makes an input of its kind, and gives it with whether it went as it has to.

    def of_scenarios(self):
        text = mutated(self.chance, self.chance.choice(self.scenarios), self.scenarios)
        self.put("it.toml", text)
        command = self.chance.choice(
            (["check"], ["check", "--json"], ["run", "--trace"], ["run", "--json"], ["explain"], ["threads"], ["chart"])
        )
        said, status = self.runs([*command, "it.toml"])
        if "--json" in command and (said or command[0] == "check"):
            json.loads(said)
        return text, status in STATUSES

    def of_requests(self):
        text = lines_of(self.chance, a_request, OPENED) if self.chance.random() < 0.5 else self.chance.choice(self.sessions)
        text = text if self.chance.random() < 0.3 else mutated(self.chance, text, self.sessions)
        said, status = self.served([], text)
        asked, replies = text.removesuffix(b"\n").split(b"\n"), said.split(b"\n")[1:-1]
        # The session ends after a quit, unless a request before it on its line is refused.
        ends = {len(asked) if text else 0, *(at for at, it in enumerate(asked, 1) if b"quit" in it.split(b";"))}
        return text, status in STATUSES and (status != 0 or len(replies) in ends)

    def of_moves(self):
        text = lines_of(self.chance, a_move, RECOVERED) if self.chance.random() < 0.5 else self.chance.choice(self.conducted)
        text = text if self.chance.random() < 0.3 else mutated(self.chance, text, self.conducted)
        said, status = self.served(["--moves"], text)
        asked, replies = text.removesuffix(b"\n").split(b"\n"), said.split(b"\n")[1:-1]
        is_over = replies and replies[-1].split(b";")[-1].split(b" ")[0] in (b"bye", b"stopped", b"strange")
        return text, status in STATUSES and (
            len(replies) == (len(asked) if text else 0) or bool(is_over) and len(replies) <= len(asked)
        )

    def served(self, words, text):
        """A session, over a new log or over the one that the session before has left."""
        if self.chance.random() < 0.7:
            self.clear("serve.db")
        said, status = self.runs(["serve", *words, "--log", "serve.db", "4", "2"], text)
        if status != 0:
            self.clear("serve.db")
        return said, status

    def of_logs(self):
        text = mutated(self.chance, self.chance.choice(self.logs), self.logs)
        self.clear("it.db")
        self.put("it.db", text)
        is_old = text[:4096] == self.logs[0][:4096] or b"participant" not in text
        _, status = self.runs(["log", *self.chance.choice(([], ["--explain"], ["--json"])), "it.db"])
        # A log of version 1 gets its new table; any other is left as it was.
        is_left = read(f"{self.folder}/it.db") == text or is_old and status == 0
        again, later = self.runs(["serve", "--log", "it.db", "1", "1"], b"status\n")
        return text, status in STATUSES and is_left and later in STATUSES and (later != 0 or b"restarted " in again)

    def of_log_lines(self):
        text = mutated(self.chance, self.lines, [self.lines])
        self.clear("made.db")
        _, status = self.runs(["log", "--make", "made.db"], text)
        if status != 0:
            return text, status in STATUSES and not os.path.exists(f"{self.folder}/made.db")
        listed, printed = self.runs(["log", "made.db"])
        # Of a decision the first two words are listed, of a name all.
        given = [it for it in text.replace(b"\r\n", b"\n").split(b"\n") if it and it != b"end"]
        rows = [it if it.startswith((b"name ", b"rm ", b"incarnation ")) else b" ".join(it.split(b" ")[:2]) for it in given]
        return text, printed == 0 and listed.split(b"\n")[:-1] == rows
