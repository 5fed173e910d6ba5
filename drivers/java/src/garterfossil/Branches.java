package garterfossil;

import java.util.ArrayList;
import java.util.Iterator;
import java.util.List;
import java.util.Optional;
import java.util.concurrent.CopyOnWriteArrayList;
import java.util.stream.Collectors;
import javax.transaction.xa.XAResource;

/**
 * The branches of a transaction, in the order in which they began, and the thread of the
 * coordinator that it has from the first one on.
 */
final class Branches {
    private final GlobalTransaction transaction;
    private final Manager manager;
    // Another thread may look at them as the session or the time is over.
    final List<Branch> all = new CopyOnWriteArrayList<>();
    private final List<Integer> unjoined = new ArrayList<>();
    volatile Session session;
    private Session.Slot slot;
    private volatile String gtrid;

    Branches(GlobalTransaction transaction, Manager manager) {
        this.transaction = transaction;
        this.manager = manager;
    }

    private List<Branch> begun() {
        return all.stream().filter(Branch::isBegun).toList();
    }

    /** The transaction's 32 digits, or null where nothing takes part in it yet. */
    String gtrid() {
        return gtrid;
    }

    /** Whether the coordinator that began it has ended. */
    boolean isSessionOver() {
        return session != null && session.coordinator.isGone();
    }

    Optional<Branch> at(ResourceManager rm) {
        return all.stream().filter(branch -> branch.rm == rm).findFirst();
    }

    Optional<Branch> of(XAResource xaResource) {
        return all.stream().filter(branch -> branch.resource == xaResource).findFirst();
    }

    // ** their beginning

    /** Begins a branch, over a connection of the pool or one that the program brought. */
    Branch begin(ResourceManager rm, XAResource brought) throws Fault {
        take();
        Branch branch = made(rm, brought);
        branch.start();
        unjoined.add(rm.number);
        if (begun().size() > 1) {
            // The calls of the first phase wait after that, while the work goes on.
            join(true);
        }
        return branch;
    }

    /** A thread of the coordinator, once something takes part, and its next transaction. */
    private void take() throws Fault {
        if (slot != null) {
            return;
        }
        Session up = manager.session();
        Session.Slot taken = up.take(transaction.left());
        try {
            gtrid = taken.begin();
        } catch (Fault | RuntimeException | Error error) {
            up.giveBack(taken);
            throw error;
        }
        session = up;
        slot = taken;
        session.live.add(transaction);
    }

    private void join(boolean isNow) throws Fault.Gone {
        if (!unjoined.isEmpty()) {
            slot.join(unjoined, isNow);
            unjoined.clear();
        }
    }

    /** A branch that is among the others, and ends with them. */
    private Branch made(ResourceManager rm, XAResource brought) throws Fault {
        ResourceManager.Lease lease = null;
        try {
            lease = brought == null ? rm.borrow(transaction.left()) : null;
            XAResource resource = brought == null ? lease.link.xaResource() : brought;
            Branch branch = new Branch(BranchXid.of(session.name, gtrid, slot.number, rm.number), rm, lease, resource, transaction::left);
            all.add(branch);
            return branch;
        } catch (Fault | RuntimeException | Error error) {
            if (lease != null) {
                lease.lose();
            }
            throw error;
        }
    }

    // ** their end

    /** What makes their calls. */
    Hands hands() throws Fault.Gone {
        join(false);
        return new Hands(transaction, begun(), session, slot, manager);
    }

    /** Cuts short what runs on their connections. */
    void cancelWork() {
        all.forEach(branch -> branch.gate.cancel());
    }

    /**
     * Lets no work in any more. To cut short what is inside may take long at a resource that is
     * silent, so each branch does that by itself.
     */
    void bar(String why) {
        all.forEach(branch -> branch.gate.bar(why));
    }

    /**
     * The session is over: their connections are closed, and work that isn't prepared is undone as
     * far as that can be done here.
     */
    void abandon(String why) {
        all.forEach(branch -> branch.abandon(why));
    }

    /**
     * The transaction is over: the connections go back to their pools, and its thread to the
     * session.
     */
    void release() {
        if (slot != null) {
            Session.Slot over = slot;
            slot = null;
            release(all.iterator(), over);
        }
    }

    /**
     * Releases the branches that are left, and then the thread: whatever goes wrong with one, the
     * others are released.
     */
    private void release(Iterator<Branch> left, Session.Slot over) {
        if (!left.hasNext()) {
            session.live.remove(transaction);
            session.giveBack(over);
            return;
        }
        Branch branch = left.next();
        try {
            if (session.coordinator.isGone()) {
                branch.abandon("the coordinator ended");
            } else {
                branch.release();
            }
        } finally {
            release(left, over);
        }
    }
}
