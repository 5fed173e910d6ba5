package garterfossil;

import java.nio.file.Path;
import java.time.Duration;
import java.util.List;
import java.util.stream.Collectors;

/**
 * One branch in doubt that is ended by hand: as its log says, which is held until this is closed,
 * so that no coordinator decides otherwise.
 */
final class ByHand implements AutoCloseable {
    private final Resource resource;
    private final BranchXid xid;
    private final String call;
    private final Coordinator hold;

    private ByHand(Resource resource, BranchXid xid, String call, Coordinator hold) {
        this.resource = resource;
        this.xid = xid;
        this.call = call;
        this.hold = hold;
    }

    /** A branch of the manager of a log, which holds this. */
    static ByHand of(Path log, Log kept, Coordinator.Starter starter, String program, List<Listing> listings, String text,
        Duration patience) throws Fault {
        if (kept.isInUse) {
            throw new Fault.Unavailable("the log " + log + " can't be read, so nothing is ended: a program has it");
        }
        BranchXid xid = parsed(text);
        Resource at = at(listings, xid, xid.isOf(kept.manager, xid.rm()));
        String call = Doubt.callFor(log, kept, xid);
        Coordinator hold = new Coordinator(starter, kept.served(log, program, 1), patience);
        long incarnation = hold.incarnation();
        if (xid.incarnation() >= incarnation || incarnation != kept.incarnation + 1) {
            hold.quit();
            throw new Fault.Unavailable(xid.incarnation() >= incarnation
                ? "the log " + log + " is older than the branch " + xid + ", so nothing is ended: put the right one back"
                : "another program has had the log " + log + " since it was looked at, so nothing is ended: look again");
        }
        return new ByHand(at, xid, call, hold);
    }

    /** A branch of a manager that is gone for good, and its log with it, as an operator says. */
    static ByHand leftBy(String manager, String outcome, String own, List<Listing> listings, String text) throws Fault.Unavailable {
        if (!List.of("commit", "rollback").contains(outcome)) {
            throw new Fault.Unavailable("--left-by needs --outcome commit or --outcome rollback: no log says how it ends");
        }
        if (manager.equals(own)) {
            throw new Fault.Unavailable((own.isEmpty() ? "the manager without a name" : own)
                + " is the manager of this file: its log says how its branches end");
        }
        BranchXid xid = parsed(text);
        return new ByHand(at(listings, xid, xid.manager().equals(manager)), xid, "xa_" + outcome, null);
    }

    private static BranchXid parsed(String text) throws Fault.Unavailable {
        try {
            BranchXid xid = BranchXid.parse(text);
            if (xid.isOfAManager()) {
                return xid;
            }
        } catch (IllegalArgumentException error) {
            // It is none.
        }
        throw new Fault.Unavailable(text + " is no identifier of a branch, as status shows it");
    }

    /** The resource that lists the branch. */
    private static Resource at(List<Listing> listings, BranchXid xid, boolean isOfManager) throws Fault.Unavailable {
        for (Listing it : listings) {
            if (isOfManager && it.all().contains(xid)) {
                return it.resource();
            }
        }
        throw new Fault.Unavailable("no resource lists a branch " + xid + " of this manager" + listings.stream().filter(it -> it.fault() != null)
            .map(it -> "; " + it.resource().name() + ": " + it.fault()).collect(Collectors.joining()));
    }

    /** What is about to be done, in the words of the resource. */
    @Override
    public String toString() {
        return resource.name() + ": " + resource.byHand(call, xid);
    }

    /** Does it: how it was answered. */
    String end() throws Fault {
        int code = Listing.apart(resource, link -> Calls.end(call, link.xaResource(), xid));
        return code == Code.OK ? "it is ended" : "it was over already: " + Code.name(code);
    }

    @Override
    public void close() {
        if (hold != null) {
            hold.quit();
        }
    }
}
