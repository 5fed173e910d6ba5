"""A stand-in for `xatm serve --moves`: it says what docs/MOVES.md says, and takes no other answers
than that page has.

usage: fake_coordinator.py LOG [DIES_AT]

LOG is a file of JSON with the rows, the incarnation, the names, and all moves that it got, the
lines among them. DIES_AT is where it ends in place of a reply, the first time: `start`, `commit` or
`rollback`, as it gets such a move; `votes`, as it gets votes that are all for commit; `decided`, as
it has decided these and told nobody. With `stopped` it says in place of the first decision that its
log failed."""

import json
import os
import sys

PAGE = 32
ROLLED_BACK = set(map(str, range(100, 108)))
ENDS = {"5", "6", "7", "8"}
#: What waits at a branch, by its place: the verb, and its answers.
TOLD = {
    "preparing": ("prepare", {"0", "3", "lost"} | ROLLED_BACK),
    "at once": ("commit-at-once", {"0", "-3", "lost"} | ROLLED_BACK),
    "committing": ("commit", {"0", "4", "-3", "-4", "lost"} | ENDS | ROLLED_BACK),
    "rolling back": ("rollback", {"0", "-4", "lost"} | ENDS | ROLLED_BACK),
    "undoing": ("undo", {"0", "6", "-4", "lost"} | ROLLED_BACK),
    "forgetting": ("forget", {"0", "-3", "-4", "lost"}),
}
CALLS = {"xa_commit": {"0", "4", "-3", "-4"} | ENDS | ROLLED_BACK, "xa_rollback": {"0", "-4"} | ENDS | ROLLED_BACK, "xa_forget": {"0", "-3", "-4"}}


class Thread:
    def __init__(self, number):
        self.number, self.gtrid, self.standing, self.why = number, None, "idle", None
        self.places, self.owed, self.mixed = {}, set(), {}

    def begin(self, gtrid):
        self.__init__(self.number)
        self.gtrid, self.standing = gtrid, "open"

    def is_asked(self):
        return any(place in TOLD for place in self.places.values())

    def told(self):
        verb = [TOLD[place][0] for place in self.places.values() if place in TOLD]
        if verb:
            return " ".join([verb[0], *(str(rm) for rm, place in self.places.items() if place in TOLD)])
        words = [self.standing, *(map(str, self.why) if self.why and self.standing == "rolled-back" else [])]
        words += ["owed", *map(str, sorted(self.owed))] if self.owed else []
        mixed = {rm: how for rm, how in self.mixed.items() if (how, self.standing) not in (("7", "committed"), ("6", "rolled-back"))}
        return " ".join(words + (["mixed", *(f"{rm} {how}" for rm, how in mixed.items())] if mixed else []))


class Recovery:
    is_scanned = False

    def __init__(self):
        self.stage, self.calls, self.put_off, self.is_last = "idle", [], 0, False


class Coordinator:
    def __init__(self, path, dies_at):
        self.path, self.dies_at = path, dies_at
        self.log = {"incarnation": 0, "rows": {}, "requests": []}
        if os.path.exists(path):
            with open(path) as it:
                self.log = json.load(it)
        self.log["incarnation"] += 1
        self.name = self.log.get("names", [""])[0].encode().hex()
        self.found = {gtrid: set(xids) for gtrid, xids in self.log["rows"].items()}
        self.sequence, self.threads, self.recoveries = 0, {}, {}
        #: Ends that are owed: by resource manager, the branch and its call.
        self.debts, self.over, self.rolled_back = {}, set(), set()
        self.save()

    def save(self):
        with open(self.path + ".new", "w") as it:
            json.dump(self.log, it)
        os.replace(self.path + ".new", self.path)

    def die(self, moment):
        if self.dies_at == moment and moment not in self.log.setdefault("deaths", []):
            self.log["deaths"].append(moment)
            self.save()
            if moment == "stopped":
                print("stopped", flush=True)
            os._exit(9)

    def reply(self, line):
        moves = [move.split(" ") for move in line.split(";")]
        self.log["requests"] += line.split(";")
        self.log.setdefault("lines", []).append(line)
        self.die(moves[0][0])
        if moves[0][0] in ("recover", "page", "end", "due", "fate", "quit"):
            return getattr(self, f"do_{moves[0][0]}")(*moves[0][1:])
        replies, moved, rows = [], set(), False
        for verb, number, *words in moves:
            thread = self.threads.setdefault(number, Thread(int(number)))
            is_now = number not in moved and number != "0" and getattr(self, f"do_{verb}")(thread, *words)
            moved.add(number)
            replies.append(thread if is_now else "error not now")
        for thread in replies:
            if thread != "error not now" and thread.standing == "ready":
                self.die("votes")
                self.die("stopped")
                rows = self.decide(thread) or rows
        if rows:
            self.save()
            self.die("decided")
        return ";".join(self.told(thread) for thread in replies)

    def told(self, thread):
        if isinstance(thread, str):
            return thread
        said = "started" if thread.standing == "new" else thread.told()
        if thread.standing == "open":
            return said if thread.is_asked() else "joined"
        if not thread.is_asked():
            self.leave(thread)
            self.sequence += 1
            gtrid = f"{self.log['incarnation']:016x}{self.sequence:016x}"
            thread.begin(gtrid)
            said += f" next {gtrid}"
        return said

    def leave(self, thread):
        if thread.standing == "committed" and not thread.owed:
            self.over.add(thread.gtrid)

    def xid(self, thread, rm):
        return f"7:{self.name}{thread.gtrid}:{thread.number:08x}{rm:08x}"

    # ** threads

    def do_start(self, thread):
        are_looked_at = all(recovery.is_scanned for recovery in self.recoveries.values())
        if thread.standing != "idle" or self.log["incarnation"] == 1 and not are_looked_at:
            return False
        thread.standing = "new"
        return True

    def do_join(self, thread, *rms):
        if thread.standing != "open" or any(int(rm) in thread.places for rm in rms):
            return False
        thread.places.update({int(rm): "working" for rm in rms})
        if len(thread.places) > 1:
            thread.places = dict.fromkeys(thread.places, "preparing")
        return True

    def do_commit(self, thread):
        if thread.standing != "open" or len(thread.places) > 1:
            return False
        thread.places = dict.fromkeys(thread.places, "at once")
        if not thread.places:
            thread.standing = "ready"
        return True

    def do_rollback(self, thread):
        if thread.standing != "open":
            return False
        self.roll_back(thread, None)
        return True

    def roll_back(self, thread, why):
        thread.standing, thread.why = "rolled-back", why
        undone = {"working": "undoing", "preparing": "undoing", "prepared": "rolling back"}
        thread.places = {rm: undone.get(place, place) for rm, place in thread.places.items()}

    def decide(self, thread):
        thread.standing = "committed"
        rms = [rm for rm, place in thread.places.items() if place == "prepared"]
        thread.places.update(dict.fromkeys(rms, "committing"))
        if rms:
            self.log["rows"][thread.gtrid] = [self.xid(thread, rm) for rm in rms]
        return bool(rms)

    def do_tell(self, thread, *answers):
        asked = [rm for rm, place in thread.places.items() if place in TOLD]
        if not asked or len(asked) != len(answers) or any(answer not in TOLD[thread.places[rm]][1] for rm, answer in zip(asked, answers)):
            return False
        why = None
        for rm, answer in zip(asked, answers):
            why = self.hear(thread, rm, thread.places[rm], answer) or why
        if thread.standing == "open":
            if why or not set(answers) <= {"0", "3"}:
                self.roll_back(thread, why)
            else:
                thread.standing = "ready"
        return True

    def hear(self, thread, rm, place, answer):
        """A branch hears how its call was answered. Why the transaction can't be committed, if it
        can't."""
        xid, thread.places[rm] = self.xid(thread, rm), "over"
        if place == "preparing":
            if answer == "0":
                thread.places[rm] = "prepared"
            elif answer != "3":
                if answer == "lost":
                    self.owe(thread, rm, f"xa_rollback {xid}")
                return (101 if answer == "lost" else int(answer)), rm
        elif place == "at once":
            thread.standing = {"0": "committed", "lost": "unknown"}.get(answer, "rolled-back")
            thread.why = (int(answer) if int(answer) > 0 else 104, rm) if thread.standing == "rolled-back" else None
            if answer == "lost":
                self.owe(thread, rm, f"xa_rollback {xid}")
        elif answer == "lost" or answer == "4":
            call = "xa_commit" if place == "committing" else "xa_forget" if place == "forgetting" else "xa_rollback"
            self.owe(thread, rm, f"{call} {xid}")
        elif place in ("committing", "rolling back"):
            how = {"-4": "8", "-3": "6"}.get(answer, "6" if place == "committing" and answer in ROLLED_BACK else answer)
            if how in ENDS:
                self.log.setdefault("heuristics", []).append(f"{xid} {how}")
                thread.mixed[rm] = how
                thread.places[rm] = "forgetting"
            elif place == "rolling back":
                self.rolled_back.add(xid)
        return None

    def owe(self, thread, rm, call):
        thread.owed.add(rm)
        self.debts.setdefault(rm, []).append(call)

    # ** recoveries

    def do_recover(self, rm):
        recovery = self.recoveries.setdefault(rm, Recovery())
        if recovery.stage != "idle":
            return "error not now"
        recovery.__init__()
        recovery.stage = "paging"
        return f"recover {PAGE} TMSTARTRSCAN"

    def do_page(self, rm, *xids):
        recovery = self.recoveries[rm]
        if recovery.stage != "paging" or len(xids) > PAGE:
            return "error not now"
        for xid in xids:
            digits = xid.split(":")[1][-32:]
            begun = int(digits[:16], 16), int(digits[16:], 16)
            if begun > (self.log["incarnation"], self.sequence):
                print(f"strange {xid}", flush=True)
                os._exit(0)
            if begun[0] < self.log["incarnation"]:
                if xid in self.rolled_back:
                    print("stopped", flush=True)
                    os._exit(0)
                recovery.calls.append(f"{'xa_commit' if digits in self.log['rows'] else 'xa_rollback'} {xid}")
        recovery.stage, recovery.is_last = "ending", len(xids) < PAGE
        return self.next_call(rm)

    def next_call(self, rm):
        recovery = self.recoveries[rm]
        if recovery.calls:
            return recovery.calls[0]
        if recovery.stage == "ending" and not recovery.is_last:
            recovery.stage = "paging"
            return f"recover {PAGE}"
        if recovery.stage == "ending":
            recovery.stage, recovery.is_scanned = "paying", True
            rows = [xid for xids in self.found.values() for xid in sorted(xids) if int(xid[-8:], 16) == int(rm)]
            recovery.calls = [*self.debts.get(int(rm), []), *(f"xa_commit {xid}" for xid in rows)]
            return self.next_call(rm)
        recovery.stage = "idle"
        self.take_rows()
        return f"recovered owed {recovery.put_off}" if recovery.put_off else "recovered"

    def take_rows(self):
        for gtrid in [gtrid for gtrid, xids in self.found.items() if not xids]:
            del self.found[gtrid], self.log["rows"][gtrid]
        for gtrid in self.over:
            self.log["rows"].pop(gtrid, None)
        self.over.clear()
        self.save()

    def do_end(self, rm, answer):
        recovery = self.recoveries[rm]
        if answer == "lost" and recovery.stage != "idle":
            recovery.__init__()
            return "later"
        call = recovery.calls[0]
        name, xid = call.split(" ")
        if answer not in CALLS[name]:
            return "error not now"
        recovery.calls.pop(0)
        if answer == "4":
            recovery.put_off += 1
            return self.next_call(rm)
        if name == "xa_rollback":
            self.rolled_back.add(xid)
        if answer in ENDS:
            self.log.setdefault("heuristics", []).append(f"{xid} {answer}")
            recovery.calls.insert(0, f"xa_forget {xid}")
        self.settle(int(rm), call, xid)
        return self.next_call(rm)

    def settle(self, rm, call, xid):
        debts = self.debts.get(rm, [])
        if call in debts:
            debts.remove(call)
            gtrid = xid.split(":")[1][-32:]
            if not any(gtrid in other for others in self.debts.values() for other in others):
                self.over.add(gtrid)
        for xids in self.found.values():
            xids.discard(xid)

    def do_due(self):
        self.take_rows()
        return " ".join(["due", *(str(rm) for rm, calls in self.debts.items() if calls)])

    def do_fate(self, gtrid):
        if gtrid in self.found:
            return "committed"
        return "rolled-back" if int(gtrid[:16], 16) + 1 == self.log["incarnation"] else "unknown"

    def do_quit(self):
        self.take_rows()
        return "bye"


def main():
    coordinator = Coordinator(sys.argv[1], sys.argv[2] if len(sys.argv) > 2 else None)
    print("restarted", coordinator.log["incarnation"], len(coordinator.found), 0, flush=True)
    for line in sys.stdin:
        print(coordinator.reply(line.rstrip("\n")), flush=True)
        if line == "quit\n":
            return
    coordinator.save()


main()
