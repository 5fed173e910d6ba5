"""The coordinator: `xatm serve --moves`, a process that this one starts, and that says which call comes next (docs/MOVES.md)."""

from __future__ import annotations

import collections
import contextlib
import logging
import os
import re
import socket
import struct
import subprocess
import threading
import time
import weakref
from collections.abc import Iterable, Iterator, Sequence

from .errors import CoordinatorGone, LogInUse, NotNow, SetupError
from .logger import log
from .logs import IN_USE, MOMENT, REFUSED, Names, is_disk_full

#: It ends so where it doesn't know the words that it is started with.
WRONG_WORDS = 3
OLDER = "the coordinator {} is older than this driver: program= is to be the xatm that it came with"
#: In seconds: the least for which a reply is waited for, the least for the greeting, and the longest for the end of the process.
SHORTEST, LONGEST_GREETING, LONGEST_END = 2.0, 30.0, 10.0
#: The first line of a session: the incarnation, and how many decisions and heuristic ends the log has.
GREETING = re.compile(r"restarted ([0-9]{1,20}) ([0-9]{1,20}) [0-9]{1,20}")
#: The version of the protocol that this driver speaks.
PROTOCOL = "1"
OTHER_PROTOCOL = "the coordinator speaks the protocol {}, and this driver {}: they are to be of one version"
#: Stands between the moves of a line, and between their replies.
AND = ";"
#: A line of moves has fewer bytes.
LONGEST_LINE = 60000
#: The coordinator has so many threads at most, of which the first is its own, for recoveries.
MOST_THREADS = 1024


def serve_command(program: str, log: str, names: Names, threads: int, databases: int) -> list[str]:
    """The words that start a coordinator over a log, for so many transactions at once, as the manager of this name, if it has one, whose
    resource managers have these names, if they have some."""
    words = [program, "serve", "--moves", *(["--name", names.manager] if names.manager else [])]
    for rm in names.rms:
        words += ["--rm", rm]
    return [*words, "--log", log, str(min(threads + 1, MOST_THREADS)), str(databases)]


class Reply:
    """A move that is on its way, and the place of what is replied to it."""

    __slots__ = ("move", "thread", "is_asked", "words")

    def __init__(self, move: str, thread: int | None, is_asked: bool):
        self.move = move
        #: Of which thread it is. None, if it is of a recovery, and has a line of its own.
        self.thread = thread
        #: Whether somebody waits for it at once.
        self.is_asked = is_asked
        self.words: str | None = None


class Coordinator:
    """The coordinator's process, and one session with it.

    Any thread may ask. The coordinator replies in the order of the lines, so several may be under way at once: whichever thread waits reads
    what has come. While a line is under way whose reply somebody waits for, as that of a decision, what others post is gathered: it goes
    by one line then, and so by one write of the log."""

    def __init__(self, command: Sequence[str], patience: float = 30.0, path: str | None = None):
        self._path = path
        # No reply is waited for longer: the greeting may take longer than others, as with a log that holds much.
        self._patience = max(patience, SHORTEST)
        self._process, self._socket = _started(command)
        assert self._process.stderr is not None
        self._errors = self._process.stderr
        self._posting = threading.Lock()
        # Moves that are yet to be written, lines whose replies are yet to come, and how many of these somebody waits for: under the lock
        # `_posting`. They are kept here and in no buffer of a file, which a process that is forked off would write once more at its end.
        self._unwritten: list[Reply] = []
        self._under_way: collections.deque[list[Reply]] = collections.deque()
        self._asked = 0
        # Whether one of the first is to be written as soon as no reply is waited for.
        self._is_due = False
        # Whether a thread reads, how often one has read, and what wakes those that wait meanwhile, by what they wait for. All under the
        # lock `_reading`.
        self._reading = threading.RLock()
        self._is_read = False
        self._readings = 0
        self._asleep: dict[Reply, threading.Condition] = {}
        # The beginning of a line whose end has yet to come.
        self._begun = b""
        self._ending = threading.Lock()
        self._fault: str | None = None
        COORDINATORS.add(self)
        greeting = self._greet()
        found = GREETING.fullmatch(greeting)
        if found is None:
            raise self._gone(f"it began with the line: {greeting}")
        self._wait_for(self._patience)
        #: The number of the session, among those of its log; and how many decisions to commit that has.
        self.incarnation, self.decisions = int(found.group(1)), int(found.group(2))
        self._see_moves(command[0])

    @classmethod
    def start(cls, command: Sequence[str], patience: float, path: str | None = None) -> Coordinator:
        """Starts it. While another one still has the log, at this path, tries again for so many seconds, and then raises LogInUse.
        Raises SetupError if the log can't be had for another reason."""
        begun = time.monotonic()
        while True:
            try:
                return cls(command, patience, path)
            except CoordinatorGone as gone:
                said, waited = str(gone).partition("; ")[2], time.monotonic() - begun
                if gone.status == WRONG_WORDS:
                    raise SetupError(OLDER.format(command[0]) + f" ({gone})") from gone
                if not said.startswith("xatm: "):
                    raise
                if IN_USE in said:
                    # One that has just ended has let the log go meanwhile.
                    if waited >= patience:
                        raise LogInUse(f"the log {path} is in use by another program: {said}") from gone
                elif REFUSED in said or waited >= MOMENT:
                    raise SetupError(said) from gone
            time.sleep(0.1)

    @property
    def pid(self) -> int:
        """The number of its process."""
        return self._process.pid

    @property
    def is_gone(self) -> bool:
        """Whether the session is over."""
        return self._fault is not None

    def see_up(self) -> None:
        """Raises CoordinatorGone if the session is over."""
        if self._fault is not None:
            raise self._gone(self._fault)

    # ** moves

    def ask(self, move: str, thread: int | None = None) -> str:
        """The reply to a move of a thread, or of a recovery. Raises NotNow or CoordinatorGone."""
        return self.wait(self.post(move, thread, is_asked=True))

    def post(self, move: str, thread: int | None = None, is_asked: bool = False, is_later: bool = False) -> Reply:
        """Puts a move on its way: at once, unless a reply is waited for; or on the line of the next one, if it is for later."""
        reply = Reply(move, thread, is_asked)
        with self._posting:
            if self._fault is not None:
                raise self._gone(self._fault)
            self._unwritten.append(reply)
            if not is_later:
                self._write_soon()
        return reply

    def wait(self, reply: Reply) -> str:
        """The reply to a move that was posted. Raises NotNow or CoordinatorGone."""
        if reply.words is None:
            with self._posting:
                if reply in self._unwritten:
                    self._write_soon()
            self._read_until(reply)
        words = reply.words or ""
        if words == "error not now" and reply.move.startswith("start "):
            raise NotNow("a transaction can't begin yet: the log is new, and each database has to be looked at first")
        if words.startswith("error "):
            raise self._killed(f"it replied {words!r} to {reply.move!r}")
        return words

    def not_understood(self, words: str, to: str) -> CoordinatorGone:
        """It has replied what there is no such reply for, so that nobody knows what it means: its process is ended, and the next session
        finds out what it had decided."""
        return self._killed(f"it replied {words!r} to {to!r}")

    def quit(self) -> None:
        """Ends the session and the process. What is open stays in doubt, as after a crash."""
        try:
            self.ask("quit")
        except CoordinatorGone:
            pass
        self._end("the session was ended")

    def kill(self) -> None:
        """Ends the process at once."""
        self._process.kill()
        self._end("the process was killed")

    # ** lines

    def _write_soon(self) -> None:
        """Writes what is unwritten, now or once no reply is waited for. Called with the lock `_posting`."""
        self._is_due = True
        if not self._asked:
            self._write()

    def _write(self) -> None:
        """Writes what is unwritten. All of it is written, or the session is over. Called with the lock `_posting`."""
        with self._whole():
            self._is_due = False
            replies, self._unwritten = self._unwritten, []
            lines = self._lines_of(replies)
            texts = [AND.join(reply.move for reply in line) for line in lines]
            self._under_way.extend(lines)
            self._asked += sum(any(reply.is_asked for reply in line) for line in lines)
            if log.isEnabledFor(logging.DEBUG):
                for text in texts:
                    log.debug("> %s", text)
            # While it is stopped it reads nothing, and what is full of moves takes none.
            self._socket.sendall("".join(f"{text}\n" for text in texts).encode("ascii"))

    @staticmethod
    def _lines_of(replies: Iterable[Reply]) -> list[list[Reply]]:
        """Moves by as few lines as may be: a thread moves once on a line."""
        lines: list[list[Reply]] = []
        length = 0
        for reply in replies:
            is_with_others = bool(lines) and reply.thread is not None and lines[-1][0].thread is not None
            length += len(reply.move) + 1
            if is_with_others and length < LONGEST_LINE and all(other.thread != reply.thread for other in lines[-1]):
                lines[-1].append(reply)
            else:
                lines.append([reply])
                length = len(reply.move)
        return lines

    @contextlib.contextmanager
    def _whole(self) -> Iterator[None]:
        """A block that writes, or reads and gives out what it read: if it fails, or is interrupted, the session is over. Else the next
        reply would pass for that to an earlier move."""
        try:
            yield
        except CoordinatorGone:
            raise
        except BlockingIOError:
            raise self._silent() from None
        except (OSError, ValueError) as error:
            raise self._gone(str(error)) from None
        except BaseException:
            self.kill()
            raise

    def _read_until(self, reply: Reply) -> None:
        """Waits for a reply: reads, or lets another thread read, which wakes this one."""
        with self._reading:
            try:
                while reply.words is None and self._fault is None:
                    if self._is_read:
                        self._sleep(reply)
                    else:
                        self._read()
            finally:
                if not self._is_read:
                    # Somebody has to read on.
                    self._wake(list(self._asleep)[:1])
        if reply.words is None:
            raise self._gone(self._fault or "")

    def _sleep(self, reply: Reply) -> None:
        """Sleeps until it is woken. Called with the lock `_reading`, which is free meanwhile."""
        woken = self._asleep.setdefault(reply, threading.Condition(self._reading))
        readings = self._readings
        try:
            # Who reads ends with a reply, or with the session. Many replies may come before this one.
            if not woken.wait(2 * self._patience + LONGEST_END) and readings == self._readings:
                self._silent()
        finally:
            self._asleep.pop(reply, None)

    def _wake(self, replies: Iterable[Reply]) -> None:
        """Wakes those that wait for these. Called with the lock `_reading`."""
        for reply in replies:
            self._asleep.pop(reply).notify_all()

    def _read(self) -> None:
        """Reads what has come: the replies to the lines that were written first. Called with the lock `_reading`, which is free while it
        reads."""
        self._is_read = True
        self._reading.release()
        try:
            with self._whole():
                for line in self._read_lines():
                    self._take(line)
            with self._posting:
                if self._is_due and not self._asked:
                    self._write()
        finally:
            self._reading.acquire()
            self._is_read = False
            self._readings += 1
            self._wake([reply for reply in self._asleep if reply.words is not None])

    def _take(self, line: str) -> None:
        """Takes the reply to the line that was written first."""
        log.debug("< %s", line)
        with self._posting:
            replies = self._under_way.popleft() if self._under_way else None
            self._asked -= any(reply.is_asked for reply in replies or ())
        if replies is None:
            raise self._killed(f"it said {line!r}, and nothing was asked")
        if not line.isascii():
            raise self._killed(f"it replied what is no text of ASCII: {line!r}")
        words = line.split(AND)
        if line == "stopped":
            full = "; the disk of the log is full" if self._path is not None and is_disk_full(self._path) else ""
            raise self._gone(f"its log failed, or its memory: it replied {line!r}{full}")
        if len(words) != len(replies):
            raise self._killed(f"it replied {line!r} to {len(replies)} moves")
        for reply, said in zip(replies, words):
            reply.words = said

    def _greet(self) -> str:
        """The greeting. Nothing comes after it, since nothing was asked for."""
        while True:
            self._wait_for(max(self._patience, LONGEST_GREETING))
            for line in self._read_lines():
                if not line.startswith("protocol "):
                    return line
                # A coordinator with names says before it which protocol this is.
                version = line.split(" ")[1]
                if version != PROTOCOL:
                    self.kill()
                    raise SetupError(OTHER_PROTOCOL.format(version, PROTOCOL))

    def _see_moves(self, program: str) -> None:
        """Sees that it takes moves."""
        try:
            words = self.ask("due")
        except CoordinatorGone as gone:
            if "error " in str(gone):
                raise SetupError(OLDER.format(program)) from gone
            raise
        if words.split(" ")[0] != "due":
            raise self.not_understood(words, "due")

    def _wait_for(self, seconds: float) -> None:
        """From now on it is waited for for so many seconds."""
        whole = int(seconds)
        for way in (socket.SO_RCVTIMEO, socket.SO_SNDTIMEO):
            self._socket.setsockopt(socket.SOL_SOCKET, way, struct.pack("ll", whole, int(1000000 * (seconds - whole))))

    def _read_lines(self) -> list[str]:
        """The lines of which the ends have come, at once; waits for something to come."""
        some = b""
        with self._whole(), contextlib.suppress(ConnectionResetError):
            some = self._socket.recv(65536)
        if not some:
            raise self._gone("its output ended")
        whole, end, self._begun = (self._begun + some).rpartition(b"\n")
        # What isn't ASCII is seen as its line is taken, after the replies that came before it.
        return whole.decode("ascii", "replace").split("\n") if end else []

    def _silent(self) -> CoordinatorGone:
        """It is stopped, or its disk hangs: it is ended, and the next session finds out what it had decided."""
        return self._killed("it says nothing any more, as if it were stopped or its disk hung: it was killed")

    def _killed(self, reason: str) -> CoordinatorGone:
        """The same for another reason."""
        self._process.kill()
        return self._gone(reason)

    # ** its end

    def _gone(self, reason: str) -> CoordinatorGone:
        """Sees that the process has ended, and tells why."""
        self._end(reason)
        error = CoordinatorGone(f"the coordinator is gone: {self._fault}")
        error.status = self._process.returncode
        return error

    def _end(self, reason: str) -> None:
        with self._ending:
            if self._fault is not None:
                return
            self._fault = reason
        # It reads no more, and who reads here goes on to the end.
        with contextlib.suppress(OSError):
            self._socket.shutdown(socket.SHUT_WR)
        said = self._errors.read().decode("utf-8", "replace").strip() if self._sees_its_end() else "its process can't be ended"
        self._fault = f"{reason}; {said}" if said else reason
        self._errors.close()
        # Whoever still reads finds its end first.
        self._socket.close()
        with self._reading:
            self._wake(list(self._asleep))

    def _sees_its_end(self) -> bool:
        """Waits for the end of the process, and brings it about. It isn't to be had while its disk hangs."""
        for _ in range(2):
            try:
                self._process.wait(timeout=LONGEST_END)
                return True
            except subprocess.TimeoutExpired:
                self._process.kill()
        return False

    def let_go(self) -> None:
        """In a process that was forked off: the pipes are the parent's, and a child that kept them would keep the coordinator up, and the
        log in use, after the end of the parent."""
        self._socket.close()
        self._errors.close()


def _started(command: Sequence[str]) -> tuple[subprocess.Popen[bytes], socket.socket]:
    """The process of a command, and what moves and replies go by: of a socket the system itself sees that nothing is waited for too
    long, by the same call that writes or reads."""
    ours, theirs = socket.socketpair()
    with theirs:
        way = theirs.fileno()
        try:
            return subprocess.Popen(command, stdin=way, stdout=way, stderr=subprocess.PIPE, start_new_session=True), ours
        except OSError as error:
            ours.close()
            raise SetupError(f"the program {command[0]} can't be run, which program= may give: {error}") from error


#: Those that the process has.
COORDINATORS: weakref.WeakSet[Coordinator] = weakref.WeakSet()


def _after_fork() -> None:
    for coordinator in list(COORDINATORS):
        coordinator.let_go()


os.register_at_fork(after_in_child=_after_fork)
