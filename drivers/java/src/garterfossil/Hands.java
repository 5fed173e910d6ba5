package garterfossil;

import java.util.ArrayList;
import java.util.List;
import java.util.Set;
import java.util.stream.Collectors;

/**
 * The calls of a transaction's end: what the coordinator tells is made, and told as it was
 * answered, until it tells the outcome. Nothing is decided here (docs/MOVES.md).
 */
final class Hands {
    /** The calls after which a transaction is over if all succeed; and what is told after votes. */
    private static final Set<String> ENDS = Set.of("commit", "commit-at-once", "undo"),
        DECIDED = Set.of("commit", "committed", "rollback", "undo", "rolled-back");

    private final GlobalTransaction transaction;
    private final List<Branch> branches;
    private final Session session;
    private final Session.Slot slot;
    private final Manager manager;
    // What becomes of the transaction if the coordinator ends now; null if the next session knows.
    Outcome fate = Outcome.ROLLED_BACK;
    // How many branches were to be committed, as the log has them.
    int rows;

    Hands(GlobalTransaction transaction, List<Branch> begun, Session session, Session.Slot slot, Manager manager) {
        this.transaction = transaction;
        branches = begun;
        this.session = session;
        this.slot = slot;
        this.manager = manager;
    }

    /**
     * The work is over, and is to be committed ("commit") or rolled back ("rollback"): how the
     * transaction ended. Only a commit of several branches rests on the reply to `join`. With
     * {@code isApart} no branch waits for another: one's resource may be silent.
     */
    Told end(String move, boolean isApart) throws Fault.Gone {
        try {
            return conduct(move.equals("commit") && branches.size() > 1 ? slot.joined() : slot.end(move), isApart);
        } catch (Fault.Gone gone) {
            throw gone;
        } catch (Fault fault) {
            // It refused what can't be refused, and so is ended.
            throw session.coordinator.failed(fault);
        }
    }

    private Told conduct(Told first, boolean isApart) throws Fault {
        Told told = first;
        // The first calls are at all branches: else the coordinator doesn't know of one.
        seeExpected(told, told.rms.size() == branches.size());
        while (seen(told).outcome == null) {
            List<Branch> called = told.rms.stream().map(this::at).toList();
            make(told, called, isApart);
            String answers = called.stream().map(branch -> " " + branch.answer()).collect(Collectors.joining());
            if (ENDS.contains(told.verb) && called.stream().allMatch(it -> !it.isLost() && it.code() == Code.OK)) {
                // These leave no other outcome, so nobody waits for it.
                slot.tellLast(answers, fate);
                return over(Told.of(fate == Outcome.COMMITTED ? "committed" : "rolled-back"));
            }
            told = tell(answers, told.verb.equals("prepare"));
        }
        slot.next = told.next;
        return over(told);
    }

    private Told over(Told told) {
        for (int rm : told.owed) {
            session.recovery(at(rm).rm).owe();
        }
        if (rows > 0) {
            session.noteOver(transaction.gtrid(), xidsOf(told.owed));
        }
        return told;
    }

    private List<BranchXid> xidsOf(List<Integer> rms) {
        return rms.stream().map(rm -> at(rm).xid).toList();
    }

    private static void seeExpected(Told told, boolean isExpected) throws Fault.Refused {
        if (!isExpected) {
            throw new Fault.Refused("the coordinator told: " + told.reply);
        }
    }

    /** The same: an outcome, or calls, of which each branch is one of the transaction's. */
    private Told seen(Told told) throws Fault.Refused {
        boolean isCall = told.outcome == null;
        seeExpected(told, isCall ? !told.rms.isEmpty() && (told.stage != null || told.verb.equals("forget"))
            : told.outcome != Outcome.UNKNOWN || !told.owed.isEmpty());
        List<Integer> named = new ArrayList<>(told.owed);
        for (int at = 0; at < told.mixed.size(); at += 2) {
            named.add(told.mixed.get(at));
        }
        // Behind an outcome stand no branches first, but a vote and whose it is.
        named.addAll(told.rms.subList(isCall ? 0 : Math.min(1, told.rms.size()), told.rms.size()));
        seeExpected(told, named.stream().allMatch(rm -> branches.stream().anyMatch(branch -> branch.rm.number == rm)));
        return told;
    }

    /** The branch at a resource manager. */
    Branch at(int number) {
        return branches.stream().filter(branch -> branch.rm.number == number).findFirst().orElseThrow();
    }

    private void make(Told told, List<Branch> called, boolean isApart) {
        if (told.stage != null) {
            transaction.become(told.stage);
        }
        if (told.verb.equals("commit")) {
            fate = Outcome.COMMITTED;
            rows = called.size();
        } else if (told.verb.equals("forget")) {
            called.forEach(it -> session.counts.heuristicEnd(it.xid, it.rm, rows > 0 ? "xa_commit" : "xa_rollback", it.code()));
        }
        // An xa_commit in one phase may have been made whatever comes.
        fate = told.verb.equals("commit-at-once") ? Outcome.UNKNOWN : fate;
        manager.helpers.each(called, isApart, session.open(), branch -> branch.make(told.verb));
        note(told.verb, called);
    }

    /**
     * What the answers say, if the coordinator ends before its next reply (docs/MOVES.md, "If the
     * coordinator ends").
     */
    private void note(String verb, List<Branch> called) {
        boolean isYes = called.stream().allMatch(it -> !it.isLost() && (it.code() == Code.OK || it.code() == Code.RDONLY));
        if (verb.equals("prepare")) {
            fate = isYes ? null : Outcome.ROLLED_BACK;
        } else if (verb.equals("commit-at-once") && !called.get(0).isLost()) {
            fate = isYes ? Outcome.COMMITTED : Outcome.ROLLED_BACK;
        } else if (verb.equals("rollback")) {
            called.stream().filter(it -> !it.isLost()).forEach(it -> session.undone.add(it.xid));
        }
    }

    private Told tell(String answers, boolean isVote) throws Fault {
        if (fate != null) {
            return slot.tell(answers, isVote);
        }
        manager.outcomes.expect(transaction.gtrid());
        if (session.coordinator.isGone()) {
            // It wasn't told, so nothing was decided.
            manager.outcomes.forget(transaction.gtrid());
            fate = Outcome.ROLLED_BACK;
            throw session.coordinator.lost();
        }
        Told told = slot.tell(answers, isVote);
        // Behind a reply that says nothing of a decision the next session knows what was decided.
        seeExpected(told, DECIDED.contains(told.verb));
        if (told.verb.equals("commit")) {
            session.noteDecision(transaction.gtrid(), xidsOf(seen(told).rms));
        }
        manager.outcomes.forget(transaction.gtrid());
        fate = told.verb.startsWith("commit") ? Outcome.COMMITTED : Outcome.ROLLED_BACK;
        return told;
    }
}
