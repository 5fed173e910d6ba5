package garterfossil;

import java.nio.file.Path;
import java.util.ArrayList;
import java.util.List;
import java.util.Map;
import java.util.TreeMap;
import java.util.function.Supplier;
import java.util.stream.Collectors;

/**
 * What is in doubt at the resources of a log, as they list it. It only looks: no session begins,
 * and nothing is ended.
 */
public final class Doubt {
    /**
     * While a program has the log, a branch is in doubt once it was listed for so many seconds:
     * what waits for a decision is listed, too.
     */
    static final long YOUNG = 10;
    private static final long PAUSE_MILLIS = 300;
    /** So many branches of another manager are told. */
    private static final int MOST_TOLD = 20;

    private final Path log;
    private final Log kept;
    private final long young;
    private final List<String> lines = new ArrayList<>();
    private int branches, unreachable;
    private long seconds;

    /**
     * That of a log which holds this, as the resources list it; of a program that has the log
     * without what is listed for less than so long.
     */
    Doubt(Path log, Log kept, Supplier<List<Listing>> look, long young) throws Fault {
        this.log = log;
        this.kept = kept;
        this.young = young;
        lines.add("log " + log + ", of " + (kept.manager.isEmpty() ? "a manager without a name" : "the manager " + kept.manager) + ": " + (kept.isInUse
            ? "a program has it: it ends its branches by itself, so stop it before anything is ended by hand"
            : kept.decisions.size() + " decided, " + kept.heuristics.size() + " ended by a resource itself"));
        kept.heuristics.forEach(line -> lines.add("  " + line + ": compare it with the other resources (docs/LOG.md)"));
        List<String> waiting = new ArrayList<>(kept.decisions.keySet());
        for (Map.Entry<Integer, Listing> it : settled(look).entrySet()) {
            tell(it.getKey(), it.getValue());
            it.getValue().all().forEach(xid -> waiting.remove(xid.transaction()));
        }
        if (!waiting.isEmpty() && !kept.isInUse) {
            lines.add(waiting.size() + " of the decisions have no branch " + (unreachable > 0 ? "at the resources that answered"
                : "any more: the next start takes their rows away"));
        }
    }

    /**
     * What they list by their numbers: of a manager that has its log without what it is about to
     * end.
     */
    private Map<Integer, Listing> settled(Supplier<List<Listing>> look) throws Fault {
        Map<Integer, Listing> found = numbered(look.get());
        long begun = System.nanoTime();
        while (kept.isInUse && seconds < young && found.entrySet().stream().anyMatch(it -> !own(it.getKey(), it.getValue()).isEmpty())) {
            Aside.pause(PAUSE_MILLIS);
            Map<Integer, Listing> again = numbered(look.get());
            // What has come since is younger.
            again.forEach((number, it) -> it.all().retainAll(found.get(number).all()));
            found.putAll(again);
            seconds = (System.nanoTime() - begun) / 1_000_000_000;
        }
        return found;
    }

    private Map<Integer, Listing> numbered(List<Listing> listings) {
        Map<Integer, Listing> found = new TreeMap<>();
        listings.forEach(it -> found.put(kept.numberOf(it.resource()), it));
        return found;
    }

    private List<BranchXid> own(int number, Listing it) {
        return it.all().stream().filter(xid -> xid.isOf(kept.manager, number)).collect(Collectors.toList());
    }

    private void tell(int number, Listing it) throws Fault.Unavailable {
        List<BranchXid> own = own(number, it);
        String head = "resource " + number + ", " + it.resource().name() + ": ";
        lines.add(head + (it.fault() == null ? own.size() + " in doubt" : "not reached: " + it.fault()));
        unreachable += it.fault() == null ? 0 : 1;
        branches += own.size();
        for (BranchXid xid : own) {
            tell(it.resource(), xid);
        }
        it.all().stream().filter(xid -> !xid.manager().equals(kept.manager)).collect(Collectors.groupingBy(BranchXid::manager, TreeMap::new, Collectors.toList()))
            .forEach(this::tellOthers);
    }

    private void tell(Resource resource, BranchXid xid) throws Fault.Unavailable {
        String objection = objection(kept, xid), call = callFor(log, kept, xid);
        if (kept.isInUse) {
            lines.add("  " + xid + ": the program that has the log is to end it; listed for " + seconds + " seconds");
        } else if (objection != null) {
            lines.add("  " + xid + ": what it waits for isn't known: " + objection);
        } else {
            lines.add("  " + xid + ": waits for " + call + ", since " + (call.equals("xa_commit") ? "it is" : "it isn't")
                + " decided to commit; by hand:");
            lines.add("      " + resource.byHand(call, xid));
        }
    }

    private void tellOthers(String manager, List<BranchXid> xids) {
        lines.add("  " + xids.size() + " of " + (manager.isEmpty() ? "a manager without a name" : "the manager " + manager)
            + ": it ends them, so leave them alone");
        lines.add("      (if it is gone for good, and its log with it: end --left-by " + (manager.isEmpty() ? "''" : manager)
            + " --outcome commit|rollback BRANCH)");
        xids.stream().limit(MOST_TOLD).forEach(xid -> lines.add("      " + xid));
    }

    /** Why a log doesn't say how a branch of its manager ends; null if it does. */
    static String objection(Log kept, BranchXid xid) {
        return xid.incarnation() > kept.incarnation ? "the log is older than the branch, so it is another one, or a copy" : null;
    }

    /**
     * The call that a branch of the manager waits for: the log decides. If its row has left the
     * log, and a resource was put back since, what was committed lately does.
     */
    static String callFor(Path log, Log kept, BranchXid xid) throws Fault.Unavailable {
        String gtrid = xid.transaction();
        return kept.decisions.containsKey(gtrid) || Committed.has(log, gtrid) ? "xa_commit" : "xa_rollback";
    }

    /** How many branches are in doubt, at the resources that were reached. */
    public int branches() {
        return branches;
    }

    /** How many resources weren't reached, or aren't those of the log. */
    public int unreachable() {
        return unreachable;
    }

    /** All of it, a line for each thing. */
    @Override
    public String toString() {
        return String.join("\n", lines);
    }
}
