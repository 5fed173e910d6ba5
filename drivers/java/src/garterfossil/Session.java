package garterfossil;

import java.lang.System.Logger.Level;
import java.time.Duration;
import java.util.List;
import java.util.Queue;
import java.util.Set;
import java.util.concurrent.ConcurrentHashMap;
import java.util.concurrent.ConcurrentLinkedQueue;
import java.util.concurrent.Semaphore;
import java.util.concurrent.TimeUnit;
import java.util.concurrent.locks.LockSupport;
import java.util.function.BooleanSupplier;
import java.util.stream.Collectors;

/**
 * A session with the coordinator, which begins with the recovery of each resource that can be
 * reached.
 */
final class Session {
    /**
     * As it ends: so long it waits for the rollback of what is open, and for what is owed to
     * resources.
     */
    private static final Duration TO_END = Duration.ofSeconds(5), TO_PAY = Duration.ofSeconds(2);
    /** So many branches that were rolled back are known. */
    private static final int UNDONE = 10_000;
    /** The coordinator has 1,024 threads at most, of which the first is the recoveries'. */
    private static final int MOST = 1023;

    /** A thread of the coordinator, for one transaction at a time. */
    final class Slot {
        final int number;
        // The thread's next transaction; or the reply that has it, after an end of this outcome.
        // Neither before its first.
        String next;
        private Coordinator.Reply last, joined;
        private Outcome expected;

        Slot(int number) {
            this.number = number;
        }

        /** A transaction begins: its 32 digits. */
        String begin() throws Fault {
            String ready = next != null ? next : named(last != null ? last : coordinator.post("start " + number));
            next = null;
            last = null;
            expected = null;
            return ready;
        }

        /** The transaction that a reply names, after what a program was told. */
        private String named(Coordinator.Reply asked) throws Fault {
            String told;
            try {
                Told found = coordinator.told(asked);
                if (found.outcome == expected && found.next != null) {
                    return found.next;
                }
                told = found.reply;
            } catch (Fault.Refused refused) {
                if (expected == null) {
                    String missing = recoveries.stream().filter(it -> !it.isRecovered()).map(it -> it.rm.toString()).collect(Collectors.joining(", "));
                    throw new Fault.Unavailable("the log is new, and no transaction begins before each of its resources was reached once: " + missing);
                }
                told = refused.getMessage();
            }
            throw coordinator.failed(new IllegalStateException("a program was told " + expected + ", and the coordinator tells " + told));
        }

        /**
         * Branches began there. The coordinator is told now, if the calls of the first phase wait
         * after that.
         */
        void join(List<Integer> rms, boolean isNow) {
            joined = coordinator.post("join " + number + rms.stream().map(rm -> " " + rm).collect(Collectors.joining()));
            if (isNow) {
                coordinator.flush();
            }
        }

        /** What is told after the branches that began last. */
        Told joined() throws Fault {
            return coordinator.told(joined);
        }

        /** The work is over. */
        Told end(String move) throws Fault {
            return coordinator.told(coordinator.post(move + " " + number));
        }

        /**
         * How the calls that were told were answered. With others, if that may lead to a decision.
         */
        Told tell(String answers, boolean isVote) throws Fault {
            String move = "tell " + number + answers;
            return coordinator.told(isVote ? coordinator.gather(move) : coordinator.post(move));
        }

        /**
         * The same as the transaction is over by these answers: the reply is looked at before the
         * thread's next one begins.
         */
        void tellLast(String answers, Outcome outcome) {
            last = coordinator.post("tell " + number + answers);
            expected = outcome;
        }
    }

    final Coordinator coordinator;
    final String name;
    final long incarnation;
    final Counts counts;
    private final List<ResourceManager> rms;
    final List<Recovery> recoveries;
    // Of so many that at least half have their last reply: whoever begins then waits for none.
    private final Queue<Slot> free = new ConcurrentLinkedQueue<>();
    private final Semaphore places;
    private final int threads;
    private final Identities identities;
    private final Committed committed;
    private final Mirror mirror;
    final Set<GlobalTransaction> live = ConcurrentHashMap.newKeySet();
    // Prepared branches that this session rolled back: a resource may forget that in a crash of its
    // own.
    final Recent<BranchXid> undone = new Recent<>(UNDONE);
    // Whether a transaction with a row was over since the coordinator was asked last what is due:
    // then rows leave that may.
    private volatile boolean hasRows;
    private volatile String fatal;
    private Object oldest;
    private long oldestSince;

    /** A session that has begun. Without a mirror that is null. */
    Session(Coordinator coordinator, String name, List<ResourceManager> rms, int threads, Identities identities,
        Committed committed, Counts counts, Mirror mirror) {
        this.coordinator = coordinator;
        this.name = name;
        this.rms = rms;
        this.threads = threads;
        this.identities = identities;
        this.counts = counts;
        this.committed = committed;
        this.mirror = mirror;
        incarnation = coordinator.incarnation();
        places = new Semaphore(threads, true);
        for (int thread = 1; thread <= slots(threads); thread++) {
            free.add(new Slot(thread));
        }
        recoveries = rms.stream().map(rm -> new Recovery(this, rm)).toList();
    }

    /** How many threads of the coordinator serve so many transactions at once. */
    static int slots(int threads) {
        return Math.min(MOST, 2 * threads);
    }

    /**
     * Recovers what can be reached in that time, each resource in a thread of its own. These go on
     * with the rest.
     */
    void recover(Duration patience) throws Fault {
        recoveries.forEach(Recovery::start);
        long until = System.nanoTime() + patience.toNanos();
        for (Recovery recovery : recoveries) {
            recovery.awaitFirst(until);
            String wrong = identities.wrong(recovery.rm.number);
            fatal = fatal == null ? wrong : fatal;
        }
        seeWhole();
    }

    // ** transactions

    /** Whether a transaction has a branch that isn't over, as far as it isn't owed. */
    boolean has(String gtrid) {
        return live.stream().anyMatch(it -> gtrid.equals(it.gtrid()));
    }

    /** A thread of the coordinator, for one transaction. */
    Slot take(Duration patience) throws Fault {
        seeWhole();
        Aside.take(places, patience, "a thread of the coordinator", () -> "all " + threads + " transactions that may run at once do so, for "
            + patience.toSeconds() + " s. Give the manager more threads; a REQUIRES_NEW in a transaction needs a second one while the first waits");
        return free.remove();
    }

    /**
     * The thread that was used last is used last: until then what it told is written with what
     * others ask.
     */
    void giveBack(Slot slot) {
        free.add(slot);
        places.release();
    }

    Recovery recovery(ResourceManager rm) {
        return recoveries.get(rms.indexOf(rm));
    }

    /** It is decided that a transaction commits, and no resource has heard of it. */
    void noteDecision(String gtrid, List<BranchXid> xids) throws Fault.Gone {
        committed.add(gtrid);
        try {
            if (mirror != null) {
                mirror.add(gtrid, xids);
            }
        } catch (Fault.Lost error) {
            // The next session tells it what the log has.
            throw killed(error.getMessage());
        }
    }

    /** A transaction that had a row in the log is over, except for these branches. */
    void noteOver(String gtrid, List<BranchXid> owed) {
        hasRows = true;
        if (mirror != null) {
            mirror.owe(gtrid, owed);
        }
    }

    /** A branch that was in doubt is ended. */
    void noteEnded(BranchXid xid) {
        if (mirror != null) {
            mirror.ended(xid);
        }
    }

    // ** what must not be

    /**
     * A resource lists a branch that no session over this log began: nobody is to begin one before
     * somebody has looked.
     */
    void strange(ResourceManager rm, String xid) throws Fault.Gone {
        throw shut("the log isn't that of " + rm + ", which lists " + xid + " of a later session than any that the log knows. Was its file"
            + " lost, or another one put in its place? Start with the right one: this one would roll back what is decided");
    }

    /**
     * Sees that the log knows of what is decided and listed, and that nothing of it, or of what is
     * rolled back, is over.
     */
    void seeKnown(ResourceManager rm, List<BranchXid> listed) throws Fault.Gone {
        for (BranchXid xid : listed) {
            String gtrid = xid.transaction();
            boolean isEarlier = xid.incarnation() < incarnation;
            if (mirror != null && mirror.isUnknownToLog(gtrid)) {
                throw shut(rm + " lists " + xid + ", which the mirror has decided to commit, and of which this log knows nothing: it is older than the mirror."
                    + " Put the right one back, or make it of the mirror (garterfossil.Command failover)");
            }
            if (isEarlier && undone.contains(xid)) {
                returned(rm, List.of(xid));
            }
            if (isEarlier && committed.has(gtrid) && !coordinator.ask("fate " + gtrid).equals("committed")) {
                throw shut(rm + " lists " + xid + " as prepared, which is over: it isn't as it was, or the log isn't. Its transaction was committed, so by hand: "
                    + rm.resource.byHand("xa_commit", xid));
            }
        }
    }

    /**
     * A resource lists branches of this session that were over. Only a rollback may have been
     * forgotten.
     */
    void returned(ResourceManager rm, List<BranchXid> listed) throws Fault.Gone {
        if (listed.stream().allMatch(undone::contains)) {
            Manager.LOG.log(Level.WARNING, () -> rm + " lists again what was rolled back: the next session sees to it");
            throw killed("what was rolled back at " + rm + " is there again");
        }
        throw shut(rm + " lists " + listed + ", which were over. Somebody else ends its branches, or it isn't the resource that it is taken for");
    }

    private Fault.Gone shut(String why) {
        fatal = why;
        Manager.LOG.log(Level.ERROR, why);
        identities.shut(why);
        return killed(why);
    }

    private Fault.Gone killed(String why) {
        coordinator.kill(why);
        return coordinator.lost();
    }

    void seeWhole() throws Fault {
        if (fatal != null) {
            throw new Fault.Unavailable(fatal);
        }
    }

    /** Why it isn't up; null if it is. */
    String whyNot() {
        return fatal != null ? fatal : coordinator.isGone() ? coordinator.lost().getMessage() : null;
    }

    /**
     * Looks once in a while whether the coordinator replies, and ends it if it doesn't any more. It
     * waits for no reply.
     */
    void watch(long patience) throws Fault.Gone {
        coordinator.seeRuns();
        coordinator.readWhatCame();
        Object first = coordinator.oldest();
        if (first == null || first != oldest) {
            oldest = first;
            oldestSince = System.nanoTime();
        } else if (System.nanoTime() - oldestSince > patience) {
            coordinator.kill("it didn't reply for " + TimeUnit.NANOSECONDS.toSeconds(patience) + " s");
        }
    }

    /**
     * Does once in a while what nobody waits for: what waits is written, and rows leave the log
     * that may.
     */
    void tick() {
        if (hasRows) {
            hasRows = false;
            coordinator.post("due");
        }
        coordinator.flush();
        finishMirror();
    }

    private void finishMirror() {
        if (mirror != null) {
            mirror.finish();
        }
    }

    int open() {
        return live.size();
    }

    List<String> openTransactions() {
        return live.stream().map(GlobalTransaction::told).toList();
    }

    int owing() {
        return recoveries.stream().mapToInt(Recovery::owing).sum();
    }

    // ** its end

    /** Waits so long for what is under way, and rolls back what is open then. */
    void drain(Duration grace) {
        if (!until(grace, live::isEmpty)) {
            live.forEach(transaction -> Aside.run(() -> {
                // What is being committed goes on.
                while (live.contains(transaction) && transaction.outcome().isOpen() && !transaction.rollBackSince("the manager is closed")) {
                    LockSupport.parkNanos(50_000_000);
                }
            }));
            until(TO_END, live::isEmpty);
        }
        fatal = fatal == null ? "the manager is closed" : fatal;
        until(TO_PAY, () -> recoveries.stream().allMatch(recovery -> recovery.owed() == 0));
    }

    /** Waits for something, unless the coordinator ends. Whether it is so. */
    private boolean until(Duration patience, BooleanSupplier condition) {
        long until = System.nanoTime() + patience.toNanos();
        while (!condition.getAsBoolean()) {
            if (System.nanoTime() > until || coordinator.isGone() || Thread.currentThread().isInterrupted()) {
                return false;
            }
            LockSupport.parkNanos(5_000_000);
        }
        return true;
    }

    /** Ends it, once its transactions are over. */
    void quit() {
        recoveries.forEach(Recovery::stop);
        coordinator.quit();
        finishMirror();
    }

    /**
     * The coordinator is gone: what is open is given up, before the next session looks at the
     * resources.
     */
    void abandon() {
        recoveries.forEach(Recovery::stop);
        long until = System.nanoTime() + TO_END.toNanos();
        // Each by itself: what runs at a resource that is silent may take long to be cut short.
        Queue<GlobalTransaction> left = new ConcurrentLinkedQueue<>(live);
        for (GlobalTransaction transaction : List.copyOf(left)) {
            Runnable work = () -> {
                try {
                    transaction.abandon(until);
                } finally {
                    left.remove(transaction);
                }
            };
            try {
                Aside.run(work);
            } catch (Error error) {
                // There is no thread to be had.
                work.run();
            }
        }
        while (!left.isEmpty() && System.nanoTime() < until) {
            LockSupport.parkNanos(1_000_000);
        }
        rms.forEach(ResourceManager::startAnew);
        if (mirror != null) {
            mirror.close();
        }
    }
}
