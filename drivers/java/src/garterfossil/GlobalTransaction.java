package garterfossil;

import java.lang.System.Logger.Level;
import java.time.Duration;
import java.util.ArrayList;
import java.util.HashMap;
import java.util.Map;
import java.util.List;
import java.util.Optional;
import java.util.StringJoiner;
import java.util.concurrent.Future;
import java.util.concurrent.TimeUnit;
import java.util.concurrent.locks.ReentrantLock;
import java.util.stream.Collectors;
import javax.transaction.xa.XAResource;

/**
 * A transaction over any number of resources: either all its branches are committed, or all are
 * rolled back.
 */
public final class GlobalTransaction {
    /**
     * A branch as the program has it.
     *
     * @param link the connection that it works on
     * @param gate what the program's work on that goes through
     */
    public record Enlisted(Link link, Gate gate) {
    }

    /**
     * After a time-out its thread has so long to ask for its end, and to be told. Then the
     * synchronizations are called all the same.
     */
    private static final Duration TO_HEAR = Duration.ofSeconds(5);

    private final Manager manager;
    private final ReentrantLock lock = new ReentrantLock();
    private final Branches branches;
    private final Completions completions = new Completions();
    private final Map<Object, Object> things = new HashMap<>();
    private final String begunBy = Thread.currentThread().getName();
    private final long begun = System.nanoTime();
    private boolean isCounted;
    private final long deadline;
    private final Duration timeout;
    private Future<?> alarm;
    private volatile Outcome outcome = Outcome.ACTIVE;
    private volatile String fault;
    // What made that so, if it was an exception, or a call of setRollbackOnly.
    private volatile Throwable cause;
    private volatile boolean isGivenUp, isEnded;

    GlobalTransaction(Manager manager, Duration timeout) {
        this.manager = manager;
        this.timeout = timeout;
        branches = new Branches(this, manager);
        deadline = System.nanoTime() + timeout.toNanos();
    }

    /** Its name: 32 hexadecimal digits, or how it began where nothing takes part in it yet. */
    @Override
    public String toString() {
        String gtrid = branches.gtrid();
        return (gtrid == null ? "a transaction" : "transaction " + gtrid) + " that thread '" + begunBy + "' began";
    }

    String gtrid() {
        return branches.gtrid();
    }

    /** Its name, and how it stands. */
    String told() {
        return this + ": " + outcome + ", for " + (System.nanoTime() - begun) / 1_000_000_000 + " s, at " + branches.all.stream()
            .map(branch -> branch.rm.toString()).collect(Collectors.joining(", "));
    }

    /** How it stands. */
    public Outcome outcome() {
        return outcome;
    }

    void become(Outcome next) {
        outcome = next;
    }

    /** The same, once an end that is under way is over, as that by its time-out. */
    public Outcome settled() {
        lock.lock();
        try {
            return outcome;
        } finally {
            lock.unlock();
        }
    }

    /** Why it can only be rolled back, or null. */
    public String fault() {
        return fault;
    }

    /**
     * Whether somebody called for its end, and it is over. One that is rolled back by its time-out
     * isn't ended: its program is to hear of it.
     */
    public boolean isEnded() {
        return isEnded;
    }

    /** How long it may still go on. */
    public Duration left() {
        return Duration.ofNanos(Math.max(0, deadline - System.nanoTime()));
    }

    /** What the program keeps with it. */
    public Object thing(Object key) {
        return things.get(key);
    }

    /** The program keeps a thing with it. */
    public void keep(Object key, Object thing) {
        things.put(key, thing);
    }

    /**
     * Has something done around its end. What is interposed comes closest to the end: last before
     * it, first after it.
     */
    public void register(Completion completion, boolean isInterposed) throws Fault.Unavailable {
        requireOpen();
        completions.add(completion, isInterposed);
    }

    /** Who called setRollbackOnly. */
    private static final class Marked extends Exception {
        private static final long serialVersionUID = 1;

        Marked(String why) {
            super(why + ", by thread '" + Thread.currentThread().getName() + "'");
        }
    }

    /** It can only be rolled back from now on. */
    public void setRollbackOnly(String why) {
        mark(why, fault == null ? new Marked(why) : null);
    }

    private synchronized void mark(String why, Throwable because) {
        if (fault == null) {
            fault = why;
            cause = because;
        }
        if (outcome == Outcome.ACTIVE) {
            outcome = Outcome.MARKED_ROLLBACK;
        }
    }

    /**
     * The same since something failed. That is told also where it had called setRollbackOnly
     * before.
     */
    synchronized void fail(String why, Throwable because) {
        if (cause == null || cause instanceof Marked) {
            fault = why;
            cause = because;
        }
        mark(why, because);
    }

    private void requireOpen() throws Fault.Unavailable {
        if (!outcome.isOpen()) {
            throw new Fault.Unavailable(this + " is " + outcome + (fault == null ? "" : ": " + fault));
        }
    }

    // ** its time

    void startClock() {
        alarm = manager.later(this::timeOut, timeout);
    }

    /** Its time is up: what runs is cut short, and it is rolled back. */
    private void timeOut() {
        if (!outcome.isOpen()) {
            return;
        }
        if (!rollBackSince("it took longer than its time-out of " + timeout.toSeconds() + " s")) {
            alarm = manager.later(this::timeOut, Duration.ofMillis(200));
        } else if (outcome == Outcome.ROLLED_BACK) {
            manager.counts.timeOut();
        }
    }

    /**
     * Cuts short what runs, and rolls it back. False if that isn't over yet, and the next try may
     * do it.
     */
    boolean rollBackSince(String why) {
        mark(why, null);
        if (!lock.tryLock()) {
            branches.cancelWork();
            return false;
        }
        try {
            if (outcome.isOpen()) {
                Manager.LOG.log(Level.WARNING, () -> told() + ": it is rolled back: " + why);
                branches.bar(this + " is rolled back: " + why);
                rollBack(true);
            }
        } catch (Fault error) {
            Manager.LOG.log(Level.WARNING, () -> this + ": " + error.getMessage());
        } finally {
            leave();
            // Mostly its own thread hears of it before that.
            manager.later(this::callAfter, TO_HEAR);
        }
        return true;
    }

    // ** its branches

    /**
     * The branch at a resource, over a connection of the pool. It begins as it is first asked for.
     */
    public Enlisted enlist(Resource resource) throws Fault {
        Branch branch = branchAt(resource, null);
        return new Enlisted(branch.link(), branch.gate);
    }

    /** The branch of a connection that the program brought, at the resource that it belongs to. */
    public void enlist(Resource resource, XAResource xaResource) throws Fault {
        branchAt(resource, xaResource);
    }

    private Branch branchAt(Resource resource, XAResource brought) throws Fault {
        lock.lock();
        try {
            requireActive();
            ResourceManager rm = manager.resourceManager(resource);
            Branch found = branches.at(rm).orElse(null);
            if (found == null) {
                return begun(rm, brought);
            }
            if (brought == null && found.isLost()) {
                throw new Fault.Unavailable("the connection of " + this + " to " + rm + " was lost: roll it back");
            }
            if (brought == null ? found.link() == null : found.resource != brought) {
                throw new Fault.Unavailable(this + " has a connection to " + rm + " already, and takes part there by one alone");
            }
            return found;
        } finally {
            lock.unlock();
        }
    }

    private Branch begun(ResourceManager rm, XAResource brought) throws Fault {
        int count = branches.all.size();
        try {
            return branches.begin(rm, brought);
        } catch (Fault | RuntimeException | Error error) {
            if (branches.all.size() > count) {
                mark("no branch at " + rm + ": " + error.getMessage(), error);
            }
            throw error;
        }
    }

    /**
     * The work on a connection that the program brought is over. Its branch ends with the
     * transaction. False if it has none.
     */
    public boolean delist(XAResource xaResource, boolean isFailed) {
        Optional<Branch> found = branches.of(xaResource);
        if (found.isPresent() && isFailed) {
            found.get().fail();
            mark("work at " + found.get().rm + " failed, as its end by TMFAIL says", null);
        }
        return found.isPresent();
    }

    private void requireActive() throws Fault {
        requireOpen();
        if (branches.isSessionOver()) {
            mark("the coordinator ended", null);
        }
        if (outcome == Outcome.MARKED_ROLLBACK) {
            throw new Fault.Unavailable(this + " can only be rolled back: " + fault);
        }
    }

    // ** its end

    /**
     * Commits it. Once this returns the decision is in the log, and whatever ends then, each branch
     * is committed.
     */
    public void commit() throws Fault {
        requireNotEnded();
        if (outcome.isOpen()) {
            completions.before(this);
        }
        lock.lock();
        try {
            requireNotEnded();
            if (outcome == Outcome.ROLLED_BACK) {
                throw rolledBack();
            }
            requireOpen();
            commitLocked();
        } catch (RuntimeException | Error error) {
            outcome = Outcome.UNKNOWN;
            giveUp(error);
            throw error;
        } finally {
            end();
        }
    }

    private void requireNotEnded() throws Fault.Unavailable {
        if (isEnded) {
            throw new Fault.Unavailable(this + " is " + outcome);
        }
    }

    private Fault.RolledBack rolledBack() {
        return new Fault.RolledBack(this + " is rolled back: " + fault, cause);
    }

    /** Somebody called for its end. */
    private void end() {
        isEnded = outcome.isOver();
        try {
            leave();
        } finally {
            callAfter();
        }
    }

    private void commitLocked() throws Fault {
        if (branches.isSessionOver()) {
            mark("the coordinator ended", null);
        }
        for (Branch branch : branches.all) {
            if (branch.isLost()) {
                mark("the connection to " + branch.rm + " was lost", null);
            }
        }
        if (fault != null) {
            rollBack(false);
            throw rolledBack();
        }
        if (branches.gtrid() == null) {
            outcome = Outcome.COMMITTED;
            return;
        }
        Hands hands = branches.hands();
        Told told;
        try {
            told = hands.end("commit", false);
        } catch (Fault.Gone gone) {
            seeFate(hands, gone);
            return;
        }
        outcome = told.outcome;
        seePlain(told, hands);
        seeCommitted(told, hands);
    }

    /** Sees that no resource ended its branch otherwise. The log has a record. */
    private void seePlain(Told told, Hands hands) throws Fault.Heuristic {
        if (told.mixed.isEmpty()) {
            return;
        }
        List<Integer> codes = new ArrayList<>();
        StringJoiner how = new StringJoiner(", ");
        for (int at = 0; at < told.mixed.size(); at += 2) {
            codes.add(told.mixed.get(at + 1));
            how.add(hands.at(told.mixed.get(at)).rm + " answered " + Code.name(told.mixed.get(at + 1)));
        }
        boolean isCommitted = outcome == Outcome.COMMITTED;
        long rolledBack = codes.stream().filter(code -> code == Code.HEURRB).count();
        String text = this + (isCommitted ? " is committed" : " is rolled back") + ", but not everywhere: " + how + ". See xatm log";
        throw new Fault.Heuristic(text, isCommitted && rolledBack == hands.rows, !isCommitted || codes.contains(Code.HEURHAZ));
    }

    private void seeCommitted(Told told, Hands hands) throws Fault {
        if (outcome == Outcome.UNKNOWN) {
            Branch lost = hands.at(told.owed.get(0));
            throw new Fault.OutcomeUnknown(this + ": " + lost.rm + " was asked to commit, and how it ended isn't known", lost.fault());
        }
        if (outcome == Outcome.ROLLED_BACK) {
            // Behind rolled-back stand the vote that is the reason, and whose it is.
            Branch against = told.rms.size() == 2 ? hands.at(told.rms.get(1)) : null;
            Fault why = against == null ? null : against.fault();
            String text = why != null ? why.getMessage() : against != null ? against.rm + " voted " + Code.name(told.rms.get(0)) : "it can't be committed";
            throw new Fault.RolledBack(this + " is rolled back: " + text, why);
        }
    }

    /**
     * The coordinator ended meanwhile: how the transaction ends. The next session ends the
     * branches, too.
     */
    private void seeFate(Hands hands, Fault.Gone gone) throws Fault {
        if (hands.fate == null) {
            // Whoever begins the next session needn't wait for this thread, which waits for that.
            isGivenUp = true;
            branches.abandon("the coordinator ended");
        }
        Outcome fate = hands.fate != null ? hands.fate : manager.fateOf(branches.gtrid());
        outcome = fate;
        if (fate == Outcome.UNKNOWN) {
            throw new Fault.OutcomeUnknown(this + ": " + gone.getMessage() + ". The next session ends it everywhere alike", gone);
        }
        if (fate == Outcome.ROLLED_BACK) {
            throw new Fault.RolledBack(this + " is rolled back: " + gone.getMessage(), gone);
        }
    }

    /** An error of the driver itself: the next session ends what is open. */
    private void giveUp(Throwable error) {
        if (branches.session != null) {
            manager.outcomes.forget(branches.gtrid());
            branches.session.coordinator.failed(error);
        }
    }

    /** Rolls it back. */
    public void rollback() throws Fault {
        lock.lock();
        try {
            requireNotEnded();
            if (outcome != Outcome.ROLLED_BACK) {
                requireOpen();
                rollBack(false);
            }
        } finally {
            end();
        }
    }

    private void rollBack(boolean isApart) throws Fault {
        outcome = Outcome.ROLLING_BACK;
        try {
            if (branches.gtrid() != null && !branches.isSessionOver()) {
                if (isApart) {
                    branches.all.forEach(Branch::makeHaste);
                }
                Hands hands = branches.hands();
                Told told = hands.end("rollback", isApart);
                outcome = Outcome.ROLLED_BACK;
                seePlain(told, hands);
            }
        } catch (Fault.Gone gone) {
            // It isn't decided, so it is rolled back.
            Manager.LOG.log(Level.DEBUG, () -> this + ": " + gone.getMessage());
        } catch (RuntimeException | Error error) {
            giveUp(error);
            throw error;
        } finally {
            outcome = Outcome.ROLLED_BACK;
        }
    }

    /**
     * The session is over: the work is undone, and its connections are closed. A call that its
     * thread makes is waited for until then.
     */
    void abandon(long until) {
        if (isGivenUp) {
            return;
        }
        String why = "the coordinator ended: roll " + this + " back";
        mark("the coordinator ended", null);
        branches.bar(why);
        boolean isMine = false;
        try {
            while (!isMine && !isGivenUp && System.nanoTime() < until) {
                isMine = lock.tryLock(20, TimeUnit.MILLISECONDS);
            }
            if (isMine) {
                branches.abandon(why);
            }
        } catch (InterruptedException error) {
            Thread.currentThread().interrupt();
        } finally {
            if (isMine) {
                lock.unlock();
            }
        }
    }

    /** Lets other threads at it. If it is over, its connections go back to their pools. */
    private void leave() {
        try {
            if (alarm != null) {
                alarm.cancel(false);
            }
            if (outcome.isOver()) {
                if (!isCounted) {
                    isCounted = true;
                    manager.counts.end(outcome, System.nanoTime() - begun);
                }
                branches.release();
            }
        } finally {
            lock.unlock();
        }
    }

    /** It is no thread's any more, so that one of them may begin another. */
    private void callAfter() {
        if (outcome.isOver()) {
            GlobalTransaction before = manager.current();
            manager.associate(null);
            completions.after(this);
            if (before != null && before != this && manager.current() == null) {
                manager.associate(before);
            }
        }
    }
}
