"""The coordinator's process: replies, refusals, and its end."""

import os
import signal
import sys
import tempfile
import threading
import time
import types
import unittest
from concurrent.futures import ThreadPoolExecutor
from unittest import mock

from garterfossil.coordinator import Coordinator
from garterfossil.errors import CoordinatorGone, LogInUse, NotNow, SetupError
from garterfossil.logger import log
from garterfossil.xid import Xid

ECHO = """
import sys
print("restarted 1 0 0", flush=True)
sys.stdin.readline()
print("due", flush=True)
for line in sys.stdin:
    moves = line.rstrip("\\n").split(";")
    says = moves[0][4:].replace(",", ";") if moves[0].startswith("say ") else ";".join("echo " + move for move in moves)
    print(says, flush=True)
    if line == "quit\\n":
        break
"""
#: The same, and tells after each move how many stood on its line. A move `hold` is replied to once there is a file.
GATHERED = """
import os, sys, time
print("restarted 1 0 0", flush=True)
sys.stdin.readline()
print("due", flush=True)
for line in sys.stdin:
    moves = line.rstrip("\\n").split(";")
    while "hold" in line and not os.path.exists(sys.argv[1]):
        time.sleep(0.01)
    print(";".join(f"{move} of {len(moves)}" for move in moves), flush=True)
"""


def process(program):
    return Coordinator([sys.executable, "-c", program])


#: Replies to a line once there is a file of its number, from 1.
ONE_BY_ONE = """
import os, sys, time
print("restarted 1 0 0", flush=True)
sys.stdin.readline()
print("due", flush=True)
for number, line in enumerate(sys.stdin, 1):
    while not os.path.exists(f"{sys.argv[1]}/{number}"):
        time.sleep(0.001)
    print(line, end="", flush=True)
"""


class Coordinators(unittest.TestCase):
    def test_each_thread_gets_its_own_replies(self):
        coordinator = process(ECHO)
        wrong = []

        def ask(thread):
            for number in range(300):
                if coordinator.ask(f"{thread} {number}", thread) != f"echo {thread} {number}":
                    wrong.append((thread, number))

        threads = [threading.Thread(target=ask, args=[thread]) for thread in range(8)]
        for thread in threads:
            thread.start()
        for thread in threads:
            thread.join()
        coordinator.quit()
        self.assertEqual(wrong, [])

    def test_what_is_no_move_ends_the_session(self):
        for says in ("error not a move", "error not now", "stopped", "one,two"):
            coordinator = process(ECHO)
            with self.assertRaisesRegex(CoordinatorGone, says.replace(",", ";")):
                coordinator.ask(f"say {says}", 1)
            self.assertTrue(coordinator.is_gone)

    def test_what_is_no_text_ends_the_session_behind_what_came_before_it(self):
        says = "say = sys.stdout.buffer.write; says = 'two' if moves[0] == 'one' else say(b'one\\n\\xcc\\n') and 'three'"
        coordinator = process(ECHO.replace("    says = ", "    " + says + "\n    _ = "))
        first, second = coordinator.post("first", 1), coordinator.post("second", 2)
        with self.assertRaisesRegex(CoordinatorGone, "no text of ASCII"):
            coordinator.wait(second)
        self.assertEqual(coordinator.wait(first), "one")
        self.assertTrue(coordinator.is_gone)

    def test_a_reader_or_a_writer_that_is_broken_off_ends_the_session(self):
        # Else the next reply would pass for that to an earlier move.
        for sign in "><":
            coordinator = process(ECHO)

            def fails(text, *_, sign=sign):
                if text.startswith(sign):
                    raise RecursionError

            with mock.patch.object(log, "isEnabledFor", lambda _: True), mock.patch.object(log, "debug", fails):
                with self.assertRaises(RecursionError):
                    coordinator.ask("one", 1)
            self.assertTrue(coordinator.is_gone, sign)

    def test_a_line_that_nobody_asked_for_ends_the_session(self):
        coordinator = process(ECHO.replace("print(says", "print(2 * (says + chr(10))"))
        with self.assertRaisesRegex(CoordinatorGone, "nothing was asked"):
            for number in range(3):
                coordinator.ask(f"move {number}", 1)
        self.assertTrue(coordinator.is_gone)

    def test_a_greeting_that_is_none(self):
        for numbers in ("x 0 0", "1", " 0 0", "1 0", "1 0 -1", f"{30 * '1'} 0 0"):
            says = f"restarted {numbers}"
            with self.subTest(says), self.assertRaisesRegex(CoordinatorGone, f"it began with the line: {says}"):
                process(f"print({says!r}, flush=True)")

    def test_one_that_does_not_say_what_is_due(self):
        with self.assertRaisesRegex(CoordinatorGone, "it replied 'dew' to 'due'"):
            process(ECHO.replace('print("due"', 'print("dew"'))

    def test_a_transaction_that_cannot_begin_yet(self):
        coordinator = process(ECHO.replace('says = ', 'says = "error not now" if moves[0] == "start 1" else '))
        with self.assertRaises(NotNow):
            coordinator.ask("start 1", 1)
        self.assertEqual(coordinator.ask("still there"), "echo still there")
        coordinator.quit()

    def test_what_comes_while_a_decision_is_waited_for_goes_by_one_line(self):
        with tempfile.TemporaryDirectory() as folder:
            coordinator = Coordinator([sys.executable, "-c", GATHERED, os.path.join(folder, "go on")])
            with ThreadPoolExecutor(8) as pool:
                first = pool.submit(coordinator.ask, "hold", 1)
                until = time.monotonic() + 10
                while not coordinator._asked and time.monotonic() < until:
                    time.sleep(0.01)
                others = [pool.submit(coordinator.ask, f"tell {thread}", thread) for thread in range(2, 7)]
                late = coordinator.post("tell 1", 1)
                # A thread moves once on a line, and a recovery has one of its own.
                later, alone = coordinator.post("join 1", 1), coordinator.post("recover 0")
                while len(coordinator._unwritten) < 8 and time.monotonic() < until:
                    time.sleep(0.01)
                with open(os.path.join(folder, "go on"), "w"):
                    pass
                self.assertEqual(first.result(), "hold of 1")
                counts = [coordinator.wait(reply) for reply in (late, later, alone)] + [other.result() for other in others]
            counts = sorted(said.rpartition(" of ")[2] for said in counts)
            self.assertEqual(coordinator.wait(alone), "recover 0 of 1")
            # Of the eight the first seven stand on two or three lines, as the second move of the thread comes among them.
            self.assertLessEqual(counts.count("1"), 3)
            coordinator.kill()

    def test_a_reply_wakes_who_waits_for_it_and_one_that_reads_on(self):
        woken, wait = [], threading.Condition.wait

        def counted(condition, timeout=None):
            is_woken = wait(condition, timeout)
            # Who starts a thread waits without a limit.
            woken.extend([is_woken] if timeout is not None else [])
            return is_woken

        with tempfile.TemporaryDirectory() as folder:
            coordinator = Coordinator([sys.executable, "-c", ONE_BY_ONE, folder])
            replies = [coordinator.post(f"join {number}", number) for number in range(8)]
            with mock.patch("threading.Condition.wait", counted):
                threads = [threading.Thread(target=coordinator.wait, args=[reply]) for reply in replies]
                for thread in threads:
                    thread.start()
                for number, thread in enumerate(threads, 1):
                    time.sleep(0.05)
                    with open(os.path.join(folder, str(number)), "w"):
                        pass
                    thread.join()
            coordinator.kill()
        self.assertEqual([reply.words for reply in replies], [f"join {number}" for number in range(8)])
        # Seven wait while one reads. Each is woken for its reply, or before that to read in place of one whose reply came.
        self.assertLessEqual(len(woken), 14)

    def test_one_that_is_slow_and_replies_is_waited_for(self):
        slow = ECHO.replace("import sys", "import sys, time").replace("print(says", "time.sleep(0.5); print(says")
        with mock.patch("garterfossil.coordinator.LONGEST_END", 0):
            coordinator = Coordinator([sys.executable, "-c", slow], patience=2.0)
            replies = [coordinator.post(f"join {number}", number) for number in range(11)]
            # The last one sleeps longer than a silent one is waited for, since another thread reads.
            with ThreadPoolExecutor(2) as pool:
                waits = [pool.submit(coordinator.wait, reply) for reply in replies[-2:]]
                self.assertEqual([it.result() for it in waits], ["echo join 9", "echo join 10"])
        coordinator.kill()

    def test_one_that_is_stopped_is_waited_for_no_longer_than_the_patience(self):
        # A reply that never comes, to who reads and to who waits for that one; and a pipe that is full.
        for lines in (1, 3, 4000):
            with self.subTest(lines=lines):
                coordinator = Coordinator([sys.executable, "-c", ECHO], 0.1)
                os.kill(coordinator.pid, signal.SIGSTOP)
                begun, raised = time.monotonic(), []

                def ask(number):
                    try:
                        coordinator.ask(f"{number} " + 100 * "x", number)
                    except CoordinatorGone as error:
                        raised.append(str(error))

                if lines > 10:
                    with self.assertRaisesRegex(CoordinatorGone, "it says nothing any more"):
                        for number in range(lines):
                            coordinator.post(f"{number} " + 100 * "x")
                threads = [threading.Thread(target=ask, args=[number]) for number in range(3)]
                for thread in threads:
                    thread.start()
                for thread in threads:
                    thread.join(20)
                self.assertEqual(len(raised), 3)
                self.assertIn("it says nothing any more", raised[0])
                self.assertLess(time.monotonic() - begun, 25)
                self.assertTrue(coordinator.is_gone)

    def test_a_process_that_was_forked_off_does_not_keep_it_up(self):
        coordinator = process(ECHO)
        reader, writer = os.pipe()
        child = os.fork()
        if child == 0:
            os.close(writer)
            os.read(reader, 1)
            os._exit(0)
        try:
            # As if this process were killed.
            coordinator._socket.close()
            coordinator._process.wait(timeout=5)
        finally:
            os.close(writer)
            os.waitpid(child, 0)
            os.close(reader)

    def test_a_log_that_failed_for_a_full_disk_is_told_so(self):
        coordinator = Coordinator([sys.executable, "-c", ECHO], 2.0, "/tmp/log")
        full = types.SimpleNamespace(f_bavail=1, f_frsize=4096)
        with mock.patch("os.statvfs", lambda path: full), self.assertRaisesRegex(CoordinatorGone, "disk of the log is full"):
            coordinator.ask("say stopped", 1)

    def test_a_coordinator_that_does_not_start_tells_why(self):
        with self.assertRaisesRegex(CoordinatorGone, "xatm: log"):
            process("import sys; sys.exit('xatm: log')")

    def test_one_that_finds_the_log_in_use_is_started_again(self):
        program = "import os, sys; path = sys.argv[1]\nif not os.path.exists(path):\n  os.mkdir(path); sys.exit('xatm: a.db: in use by another process')\n" + ECHO
        with tempfile.TemporaryDirectory() as folder:
            coordinator = Coordinator.start([sys.executable, "-c", program, os.path.join(folder, "mark")], 5)
            coordinator.quit()

    def test_whatever_the_status_is_a_log_that_it_refuses_is_not_tried_again(self):
        for status in (2, 4, 6, 7, 8):
            program = f"import sys; print('xatm: log: a.db: it is shut', file=sys.stderr); sys.exit({status})"
            begun = time.monotonic()
            with self.assertRaisesRegex(SetupError, "it is shut"):
                Coordinator.start([sys.executable, "-c", program], 20.0, "a.db")
            self.assertLess(time.monotonic() - begun, 15)

    def test_a_log_in_use_is_waited_for_also_if_nobody_has_it_any_more(self):
        program = "import sys; print('xatm: a.db: in use by another process', file=sys.stderr); sys.exit(5)"
        with self.assertRaises(LogInUse):
            Coordinator.start([sys.executable, "-c", program], 0.5, "a.db")

    def test_one_that_takes_no_moves_is_too_old(self):
        for program in (
            "print('restarted 1 0 0', flush=True); input(); print('error not a request', flush=True); input()",
            "import sys; print('xatm: usage', file=sys.stderr); sys.exit(3)",
        ):
            with self.assertRaisesRegex(SetupError, "older than this driver"):
                Coordinator.start([sys.executable, "-c", program], 1.0)

    def test_the_log_is_waited_for_also_where_the_program_takes_the_statuses_of_its_children(self):
        self.addCleanup(signal.signal, signal.SIGCHLD, signal.signal(signal.SIGCHLD, signal.SIG_IGN))
        self.test_one_that_finds_the_log_in_use_is_started_again()

    def test_one_that_ends_is_gone_for_all(self):
        coordinator = process("print('restarted 1 0 0', flush=True); input(); print('due', flush=True); input()")
        for _ in range(2):
            with self.assertRaises(CoordinatorGone):
                coordinator.ask("due")


class Xids(unittest.TestCase):
    def test_a_text_is_read_back(self):
        text = "7:00000000000000010000000000000002:0000000100000003"
        self.assertEqual(str(Xid.parse(text)), text)

    def test_other_texts_are_refused(self):
        others = ["", "x", "7:00", "7::00", "7:00:", "7:0A:00", "-1:00:00", "07:00:00", "7:0:00", "7:00:00:00", "7:00:" + "00" * 65]
        for text in others:
            with self.assertRaises(ValueError, msg=text):
                Xid.parse(text)


if __name__ == "__main__":
    unittest.main()
