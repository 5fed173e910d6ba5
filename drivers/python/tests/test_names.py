"""Whose log it is: the names that it keeps, those that are drawn, and the logs of workers."""

import logging
import os
import signal
import subprocess
import sys
from unittest import mock

from garterfossil import logs, manager, session
from garterfossil import LogInUse, SetupError, TransactionManager
from garterfossil.coordinator import Coordinator, serve_command
from garterfossil.logs import Log, Names, free_log, log_at_rest, logs_of_workers
from garterfossil.xid import Xid

from . import fake_program
from .case import Case
from .fake_database import FakeDatabase


class Kept(Case):
    def setUp(self):
        super().setUp()
        self.program = fake_program.made_in(self.folder)

    def manager(self, databases=None, log=None, **options):
        named = databases or {"bank": self.left, "shop": self.right}
        return TransactionManager(named, log or self.log, threads=2, patience=1.0, program=self.program, **options)

    def test_a_new_log_gets_a_name_that_no_other_has_and_keeps_it(self):
        with self.manager() as xa:
            name = xa.name
            self.assertRegex(name, "^[a-z0-9]{12}$")
            self.left.prepared.clear()
            seen = []
            self.left.before["commit_prepared"] = lambda: seen.extend(self.left.prepared)
            self.move(xa)
        self.assertEqual(seen[0].gtrid[:-16].decode(), name)
        with self.manager() as xa:
            self.assertEqual(xa.name, name)
        with self.manager(log=self.log + "-2") as xa:
            self.assertNotEqual(xa.name, name)

    def test_a_log_on_a_file_system_that_is_no_place_for_it_is_warned_of(self):
        device = os.stat(self.folder).st_dev
        mounts = os.path.join(self.folder, "mounts")
        for kind, said in (("nfs4", ["another machine"]), ("overlay", ["lost with the container"]), ("ext4", [])):
            with open(mounts, "w") as it:
                it.write(f"22 1 0:999999 / /proc rw - proc proc rw\n36 22 {os.major(device)}:{os.minor(device)} / / rw master:1 - {kind} a rw\n")
            with mock.patch.object(logs, "MOUNTS", mounts), mock.patch.object(logs.log, "warning") as warned:
                self.manager().close()
            texts = [it.args[0] % it.args[1:] for it in warned.call_args_list if "lies on" in it.args[0]]
            self.assertEqual([one in text for one, text in zip(said, texts)], [True] * len(texts))
            self.assertEqual(len(texts), len(said), kind)

    def test_a_new_log_over_old_branches_leaves_them_alone(self):
        with self.manager() as xa:
            self.right.next["commit_prepared"] = "lost"
            self.right.before["commit_prepared"] = lambda: xa._session.coordinator.kill()
            self.left.next["commit_prepared"] = "lost"
            self.move(xa)
            self.left.prepared[Xid(7, xa.name.encode() + bytes(16), bytes(8))] = []
        os.remove(self.log)
        with self.assertLogs("garterfossil", logging.WARNING) as logged, self.manager() as xa:
            self.move(xa)
        self.assertIn("is gone from", "".join(logged.output))
        self.assertEqual(len(self.left.prepared), 1)

    def test_a_log_that_was_made_since_its_names_were_looked_for(self):
        with self.manager() as xa:
            name = xa.name
        found = [Log(), log_at_rest(self.program, self.log, 1.0)]
        is_new = mock.patch.object(manager, "is_new_log", side_effect=[True, False])
        with is_new, mock.patch.object(session, "log_at_rest", side_effect=found):
            with self.manager() as xa:
                self.assertEqual(xa.name, name)

    def test_a_start_opens_the_log_twice_also_if_something_is_decided(self):
        with self.manager() as xa:
            self.left.next["commit_prepared"] = "lost"
            self.left.before["commit_prepared"] = lambda: xa._session.coordinator.kill()
            t = self.move(xa)
        counted = os.path.join(self.folder, "counts")
        with open(counted, "w") as it:
            it.write(f'#!/bin/sh\necho "$1" >> "{self.folder}/opened"\nexec "{self.program}" "$@"\n')
        os.chmod(counted, 0o755)
        self.assertEqual(list(self.in_the_log()["rows"]), [t.gtrid])
        self.program = counted
        self.manager().close()
        with open(f"{self.folder}/opened") as it:
            self.assertEqual(it.read().split(), ["log", "serve"])

    def test_an_old_log_without_a_name_goes_on_without_one(self):
        with self.manager([self.left, self.right], name="") as xa:
            self.assertEqual(xa.name, "")
        with self.manager() as xa:
            self.assertEqual(xa.name, "")
            self.move(xa)
        self.assertEqual(self.written(), (["take"], ["give"]))

    def test_another_name_and_another_order_are_refused(self):
        self.manager(name="shop-1").close()
        self.manager().close()
        with self.assertRaises(SetupError):
            self.manager(name="shop-2")
        with self.assertRaises(SetupError):
            self.manager({"shop": self.right, "bank": self.left})

    def test_a_database_that_is_added_is_kept_and_what_waits_at_the_others_is_ended(self):
        with self.manager() as xa:
            self.right.before["commit_prepared"] = lambda: xa._session.coordinator.kill()
            self.right.next["commit_prepared"] = "lost"
            self.left.next["commit_prepared"] = "lost"
            self.move(xa)
            xa._is_closed, xa._session = True, None
        self.right.before.clear()
        audit = FakeDatabase()
        with self.manager({"bank": self.left, "shop": self.right, "audit": audit}) as xa:
            self.assertEqual((self.left.prepared, self.right.prepared), ({}, {}))
            with xa.transaction() as t:
                t["audit"].execute("note")
                t["bank"].execute("take")
        self.assertEqual(audit.written, ["note"])
        with self.assertRaisesRegex(SetupError, "audit"):
            self.manager({"bank": self.left, "shop": self.right, "post": audit})
        # Without it, too, the log keeps its name.
        self.manager().close()
        with self.assertRaisesRegex(SetupError, "audit"):
            self.manager({"bank": self.left, "shop": self.right, "post": audit})

    def test_names_of_databases_that_no_log_can_keep(self):
        with self.assertRaisesRegex(ValueError, "my bank"):
            self.manager({"my bank": self.left})

    def test_the_words_of_the_command(self):
        words = serve_command("xatm", "a.db", Names("shop-1", ("bank", "stock")), 8, 2)
        self.assertEqual(" ".join(words), "xatm serve --moves --name shop-1 --rm bank --rm stock --log a.db 9 2")

    def test_another_version_of_the_protocol_is_refused(self):
        with self.assertRaisesRegex(SetupError, "protocol 2"):
            Coordinator([sys.executable, "-c", "print('protocol 2 name a'); print('restarted 1 0 0'); input()"])

    # ** workers

    def test_each_worker_has_a_log_and_a_name_of_its_own(self):
        pattern = os.path.join(self.folder, "log-{worker}.db")
        with self.manager(log=pattern) as one, self.manager(log=pattern) as other:
            self.assertEqual([os.path.basename(xa.log) for xa in (one, other)], ["log-0.db", "log-1.db"])
            self.assertNotEqual(one.name, other.name)
            first = one.name
        self.assertEqual([os.path.basename(path) for path in logs_of_workers(pattern)], ["log-0.db", "log-1.db"])
        with self.manager(log=pattern) as again:
            self.assertEqual((os.path.basename(again.log), again.name), ("log-0.db", first))

    def test_a_worker_that_is_killed_lets_its_log_go(self):
        pattern = os.path.join(self.folder, "log-{worker}")
        held = f"import time; from garterfossil.logs import free_log; it = free_log({pattern!r}); print(it[0], flush=True); time.sleep(60)"
        with subprocess.Popen([sys.executable, "-c", held], stdout=subprocess.PIPE, text=True, cwd=os.path.dirname(os.path.dirname(__file__))) as worker:
            self.assertEqual(os.path.basename(worker.stdout.readline().strip()), "log-0")
            path, mine = free_log(pattern)
            self.assertEqual(os.path.basename(path), "log-1")
            worker.kill()
        path, its = free_log(pattern)
        self.assertEqual(os.path.basename(path), "log-0")
        mine.close()
        its.close()

    def test_a_log_that_cannot_be_read_has_no_names_also_where_the_program_takes_the_statuses_of_its_children(self):
        self.addCleanup(signal.signal, signal.SIGCHLD, signal.signal(signal.SIGCHLD, signal.SIG_IGN))
        program = os.path.join(self.folder, "refuses")
        with open(program, "w") as it:
            it.write("#!/bin/sh\necho 'xatm: log' >&2\nexit 2\n")
        os.chmod(program, 0o755)
        with self.assertRaises(SetupError):
            Log.at(program, self.log)

    def test_a_look_that_somebody_kills_is_made_again(self):
        program = os.path.join(self.folder, "is_killed")
        with open(program, "w") as it:
            # It has printed a part.
            it.write(f"#!/bin/sh\necho incarnation 3\n[ -e {self.folder}/once ] || {{ touch {self.folder}/once; kill -9 $$; }}\necho {'1' * 32} 0\n")
        os.chmod(program, 0o755)
        with open(self.log, "wb") as it:
            it.write(b"SQLite format 3\0")
        self.assertEqual(list(log_at_rest(program, self.log, 5.0).decisions), ["1" * 32])

    def test_a_look_at_the_branches_of_decisions_that_somebody_kills_is_made_again(self):
        program, gtrid = os.path.join(self.folder, "is_killed"), "0" * 15 + "1" + "0" * 15 + "1"
        # Also where the system tells no status of it, as while gunicorn's `post_fork` runs.
        for ends in ("kill -9 $$", "exit 0"):
            with open(program, "w") as it:
                it.write(
                    f"#!/bin/sh\necho incarnation 3\necho '{gtrid} is decided to commit, and its row waits for 1 branch:'\n"
                    f"[ -e {self.folder}/once ] || {{ touch {self.folder}/once; {ends}; }}\n"
                    f'echo "    7:{gtrid}:0000000100000000 at resource manager 0"\n'
                )
            os.chmod(program, 0o755)
            with open(self.log, "wb") as it:
                it.write(b"SQLite format 3\0")
            found = log_at_rest(program, self.log, 5.0).decisions
            self.assertEqual(list(map(str, found[gtrid])), [f"7:{gtrid}:0000000100000000"])
            os.remove(f"{self.folder}/once")

    def test_a_look_that_ends_within_a_line_is_made_again(self):
        program, gtrid = os.path.join(self.folder, "is_cut"), "0" * 15 + "1" + "0" * 15 + "1"
        says = f"incarnation 3\\n{gtrid} is decided to commit, and its row "
        with open(program, "w") as it:
            it.write(
                f"#!/bin/sh\nprintf '{says}'\n[ -e {self.folder}/once ] || {{ touch {self.folder}/once; exit 0; }}\n"
                f"printf 'waits for 1 branch:\\n    7:{gtrid}:0000000100000000 at resource manager 0\\n'\n"
            )
        os.chmod(program, 0o755)
        with open(self.log, "wb") as it:
            it.write(b"SQLite format 3\0")
        found = log_at_rest(program, self.log, 5.0).decisions
        self.assertEqual(list(map(str, found[gtrid])), [f"7:{gtrid}:0000000100000000"])

    def test_a_log_that_was_in_use_as_it_was_looked_at_is_looked_at_again(self):
        program = os.path.join(self.folder, "in_use")
        # Its look takes longer than a moment, and it is shown as a copy has it.
        used = f"sleep 2.5; echo incarnation 2; echo 'xatm: {self.log}: another process runs over it, or it cannot be written' >&2; exit 0"
        with open(program, "w") as it:
            it.write(f"#!/bin/sh\n[ -e {self.folder}/once ] || {{ touch {self.folder}/once; {used}; }}\necho incarnation 3\n")
        os.chmod(program, 0o755)
        with open(self.log, "wb") as it:
            it.write(b"SQLite format 3\0")
        self.assertEqual(log_at_rest(program, self.log, 5.0).incarnation, 3)

    def test_all_logs_of_workers_in_use(self):
        with mock.patch("garterfossil.logs.MOST_WORKERS", 1):
            _, it = free_log(f"{self.folder}/{{worker}}")
            with self.assertRaises(LogInUse):
                free_log(f"{self.folder}/{{worker}}")
            it.close()
