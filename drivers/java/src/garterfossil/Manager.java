package garterfossil;

import java.lang.System.Logger;
import java.lang.System.Logger.Level;
import java.nio.file.Path;
import java.time.Duration;
import java.util.ArrayList;
import java.util.List;
import java.util.Map;
import java.util.concurrent.Future;
import java.util.concurrent.FutureTask;
import java.util.concurrent.RejectedExecutionException;
import java.util.concurrent.ScheduledThreadPoolExecutor;
import java.util.concurrent.TimeUnit;
import java.util.stream.Collectors;
import javax.sql.DataSource;
import javax.transaction.xa.XAResource;

/**
 * Runs transactions over several resources, by the coordinator {@code xatm serve}.
 *
 * <p>The log belongs to the resources for ever: an older one would roll back what was decided
 * since, and a new one leaves all that is in doubt as it is. One manager at a time has it. Where
 * the coordinator ends, it is started again, and what was in doubt is ended first.
 */
public final class Manager implements AutoCloseable {
    /** What warnings go to. */
    public static final Logger LOG = System.getLogger("garterfossil");
    /**
     * What the program ends with if a file is no log, or another's; if only a part of a log is
     * there; and if it is shut (docs/SERVE.md).
     */
    private static final int NO_LOG = 6, HALF = 7, SHUT = 8;
    /**
     * So many milliseconds the end of a transaction waits for work that another thread still does
     * in it.
     */
    static final long WORK_PATIENCE = 2_000;
    /**
     * So long a session that follows another waits for resources that are silent, and with it the
     * transactions that begin meanwhile.
     */
    private static final Duration AGAIN = Duration.ofSeconds(2);

    /** What a manager is made of. */
    public static final class Builder {
        private final Path log;
        private final List<Resource> resources = new ArrayList<>();
        private String program = "xatm";
        private String name = "";
        private int threads = 32, helpers = -1;
        private Duration timeout = Duration.ofSeconds(60), patience = Duration.ofSeconds(20), grace = Duration.ofSeconds(10);
        private Coordinator.Starter starter = Coordinator::start;
        private DataSource mirror;

        private Builder(Path log) {
            this.log = log;
        }

        /**
         * What the manager's name begins with, as that of a service: 1 to 9 letters, digits, _ and
         * -. Behind it stands what is drawn for each new log. It stays as long as the log does.
         */
        public Builder name(String given) {
            require(given.matches("[A-Za-z0-9_-]{1," + Log.LONGEST + "}"), "the name of a manager has letters, digits, _ and -, and so not: " + given);
            name = given;
            return this;
        }

        /** The program; {@code xatm} on the PATH where none is given. */
        public Builder program(String path) {
            program = path;
            return this;
        }

        /** What starts the coordinator. */
        Builder starter(Coordinator.Starter given) {
            starter = given;
            return this;
        }

        /** How many transactions may run at once, 1 to 1,023. Others wait. */
        public Builder threads(int count) {
            require(count >= 1 && count <= 1023, "threads: 1 to 1,023, and not " + count);
            threads = count;
            return this;
        }

        /**
         * How many threads of the manager's own help those that commit: each calls one more
         * resource at the same time. As many as transactions may run, where none is given; with 0
         * all calls of a transaction are made by the thread that commits, one after the other.
         */
        public Builder helpers(int count) {
            require(count >= 0, "helpers: 0 or more, and not " + count);
            helpers = count;
            return this;
        }

        /**
         * How long a transaction may take that sets no time-out of its own: 60 seconds where none
         * is given.
         */
        public Builder timeout(Duration duration) {
            timeout = duration;
            return this;
        }

        /**
         * How long a start waits for a log that another manager has, and how long a coordinator may
         * be silent: 20 seconds where none is given.
         */
        public Builder patience(Duration duration) {
            patience = duration;
            return this;
        }

        /**
         * How long {@link Manager#close} waits for transactions that are under way: 10 seconds
         * where none is given.
         */
        public Builder grace(Duration duration) {
            grace = duration;
            return this;
        }

        /**
         * A resource that takes part. Its name has 1 to 64 letters, digits, _ and -, and stays as
         * long as the log does.
         */
        public Builder resource(Resource resource) {
            String given = resource.name();
            require(given.matches("[A-Za-z0-9_-]{1,64}"), "the name of a resource has 1 to 64 letters, digits, _ and -, and so not: " + given);
            require(resources.stream().noneMatch(it -> it.name().equals(given)), "two resources of the name " + given);
            resources.add(resource);
            return this;
        }

        /**
         * A database that has each decision before any of the resources hears of it, so that a new
         * log can be made of it if this machine is lost: one that is replicated already. While it
         * can't be reached, nothing is committed.
         */
        public Builder mirror(DataSource database) {
            mirror = database;
            return this;
        }

        /**
         * Makes the log anew of the mirror, once the machine that had it is lost: what it says of
         * that.
         */
        public String failOver() throws Fault {
            if (mirror == null) {
                throw new Fault.Unavailable("there is no mirror to make the log of");
            }
            return Mirror.failOver(mirror, log, starter, program, name, patience);
        }

        /**
         * What is in doubt at the resources of the log. It only looks, also beside a manager that
         * has the log.
         */
        public Doubt status() throws Fault {
            Log kept = kept();
            looksAt(kept);
            return new Doubt(log, kept, this::listings, Doubt.YOUNG);
        }

        private Log kept() throws Fault {
            if (!Log.isThere(log)) {
                throw new Fault.Unavailable("there is no log " + log);
            }
            return Log.of(log, starter, program, "", resources, false);
        }

        /**
         * The resources are those of a log. A connection is none of its manager's, which the next
         * session ends.
         */
        private void looksAt(Log kept) throws Fault.Unavailable {
            Identities identities = new Identities(log, kept.manager, false);
            for (Resource resource : resources) {
                resource.belongTo(kept.manager + "-status");
                resource.knownBy(identities.onlySeen(kept.numberOf(resource), resource.name()));
            }
        }

        private List<Listing> listings() {
            return resources.stream().map(Listing::of).toList();
        }

        /** A branch that is to be ended by hand, as the log says. It has the log meanwhile. */
        ByHand byHand(String branch) throws Fault {
            Log kept = kept();
            looksAt(kept);
            return ByHand.of(log, kept, starter, program, listings(), branch, patience);
        }

        /**
         * A branch that is to be ended by hand, of a manager that is gone for good, and its log
         * with it.
         */
        ByHand byHandLeftBy(String manager, String outcome, String branch) throws Fault {
            Log kept = Log.isThere(log) ? kept() : null;
            if (kept == null) {
                resources.forEach(resource -> resource.belongTo("status"));
            } else {
                looksAt(kept);
            }
            return ByHand.leftBy(manager, outcome, kept == null ? null : kept.manager, listings(), branch);
        }

        /**
         * Ends what is in doubt, and nothing else: how many branches and recoveries still wait for
         * a resource after so long.
         */
        public int recover(Duration longest) throws Fault {
            try (Manager manager = start()) {
                long until = System.nanoTime() + longest.toNanos();
                while (manager.owing() > 0 && System.nanoTime() < until) {
                    Aside.pause(100);
                }
                return manager.owing();
            }
        }

        /**
         * Starts it: recovers each resource that can be reached. The others are recovered as soon
         * as they can be.
         */
        public Manager start() throws Fault {
            Manager manager = new Manager(this);
            manager.begin();
            return manager;
        }
    }

    final Outcomes outcomes = new Outcomes();
    final Counts counts = new Counts();
    private final ManagerBean bean = new ManagerBean(this);
    final Helpers helpers;
    private final Builder made;
    private final List<ResourceManager> rms = new ArrayList<>();
    // Time-outs, and what is done each second. That may wait for the coordinator, until its watch
    // ends it.
    private final ScheduledThreadPoolExecutor clock = new ScheduledThreadPoolExecutor(1, Aside.daemons("alarm"));
    private final ScheduledThreadPoolExecutor seconds = new ScheduledThreadPoolExecutor(2, Aside.daemons("seconds"));
    private final ThreadLocal<GlobalTransaction> current = new ThreadLocal<>();
    private final Object starting = new Object();
    // As the log keeps them, and as the file beside it does.
    private Log names;
    private Identities identities;
    private Committed committed;
    private volatile Session session;
    // The same, or the next one that begins.
    private volatile Session begun;
    private volatile boolean isClosed;

    private Manager(Builder made) {
        this.made = made;
        helpers = new Helpers(made.helpers < 0 ? made.threads : made.helpers);
        clock.setRemoveOnCancelPolicy(true);
        // It is due before the time-out of what begins, for which the clock's thread needn't wake.
        clock.scheduleWithFixedDelay(helpers::look, 1, 1, TimeUnit.SECONDS);
    }

    /** A manager over the log in this file, which is made where there was none before. */
    public static Builder over(Path log) {
        return new Builder(log);
    }

    /** Sees that what a program gives is right. */
    static void require(boolean isRight, String text) {
        if (!isRight) {
            throw new IllegalArgumentException(text);
        }
    }

    private void begin() throws Fault {
        try {
            synchronized (starting) {
                Log.seePlace(made.log);
                seconds.scheduleWithFixedDelay(this::watch, 1, 1, TimeUnit.SECONDS);
                boolean isNew = !Log.isThere(made.log);
                try {
                    startFirst(isNew);
                } catch (Fault.Unavailable error) {
                    if (!isNew || names == null || !Log.isThere(made.log)
                        || Log.read(made.log, made.starter, made.program, false).manager.equals(names.manager)) {
                        throw error;
                    }
                    // Another program has made the log since its names were looked for.
                    rms.clear();
                    startFirst(false);
                }
            }
            seconds.scheduleWithFixedDelay(this::tick, 1, 1, TimeUnit.SECONDS);
            bean.register();
        } catch (Fault | RuntimeException | Error error) {
            close();
            throw error;
        }
    }

    private void startFirst(boolean isNew) throws Fault {
        names = untilFree(this::kept);
        identities = new Identities(made.log, names.manager, isNew);
        identities.seeOpen();
        closeCommitted();
        committed = new Committed(made.log, identities.areKept());
        names.decisions.keySet().forEach(committed::add);
        for (Resource resource : made.resources) {
            int number = names.numberOf(resource);
            resource.belongTo(names.manager);
            resource.knownBy(identities.of(number, resource.name()));
            rms.add(new ResourceManager(number, resource));
        }
        start(names);
    }

    /**
     * The log as it stands; for a mirror once nobody else has it, and with the branches of its
     * rows.
     */
    private Log kept() throws Fault {
        Log found = Log.of(made.log, made.starter, made.program, made.name, made.resources, made.mirror != null);
        if (made.mirror != null && found.isInUse) {
            throw new Fault.Gone("the log is in use by another process");
        }
        return found;
    }

    // ** sessions

    /** The session that is up, or the next one. */
    Session session() throws Fault {
        Session up = session;
        if (up != null && !up.coordinator.isGone()) {
            return up;
        }
        synchronized (starting) {
            if (isClosed) {
                throw new Fault.Unavailable("the manager is closed");
            }
            if (session == null || session.coordinator.isGone()) {
                Session old = session;
                if (old != null) {
                    old.seeWhole();
                    LOG.log(Level.WARNING, () -> old.coordinator.lost().getMessage() + ". It is started again");
                    old.abandon();
                }
                Log.seeThere(made.log);
                start(made.mirror == null ? names : untilFree(this::kept));
            }
            return session;
        }
    }

    private void start(Log kept) throws Fault {
        Mirror mirror = made.mirror == null ? null : mirror(kept);
        boolean isUp = false;
        try {
            start(coordinator(), mirror);
            isUp = true;
        } finally {
            if (!isUp && mirror != null) {
                mirror.close();
            }
        }
    }

    /** The mirror, which is looked at before the coordinator starts. */
    private Mirror mirror(Log kept) throws Fault {
        Mirror found = new Mirror(made.mirror, made.log, kept, names.resources, made.patience);
        found.look(made.name, number -> rms.stream().filter(rm -> rm.number == number).map(rm -> Listing.of(rm.resource))
            .filter(it -> it.fault() == null).map(Listing::all).findFirst().orElse(null));
        return found;
    }

    private void start(Coordinator coordinator, Mirror mirror) throws Fault {
        Session next = new Session(coordinator, names.manager, List.copyOf(rms), made.threads, identities, committed, counts, mirror);
        begun = next;
        try {
            identities.begin(next.incarnation);
            outcomes.find(coordinator).forEach(committed::add);
            if (mirror != null) {
                mirror.begin(next.incarnation);
            }
            outcomes.tell();
            Duration longest = session == null || made.patience.compareTo(AGAIN) < 0 ? made.patience : AGAIN;
            session = next;
            next.recover(longest);
        } catch (Fault error) {
            coordinator.kill("its start failed: " + error.getMessage());
            throw error;
        } catch (RuntimeException | Error error) {
            // It isn't recovered, and nobody may use it.
            coordinator.failed(error);
            throw error;
        }
        counts.session();
        LOG.log(Level.INFO, () -> "the coordinator is up, for session " + next.incarnation + ": " + coordinator.greeting);
    }

    private Coordinator coordinator() throws Fault {
        List<String> words = names.served(made.log, made.program, Session.slots(made.threads) + 1);
        return untilFree(() -> new Coordinator(made.starter, words, made.patience));
    }

    /** What may fail. */
    private interface Duty<T> {
        T fulfil() throws Fault;
    }

    /** Starts the program, as soon as no other one has the log. */
    private <T> T untilFree(Duty<T> start) throws Fault {
        long until = System.nanoTime() + made.patience.toNanos();
        while (true) {
            try {
                return start.fulfil();
            } catch (Fault.Gone gone) {
                seeWorthwhile(gone, until);
            }
            Aside.pause(100);
        }
    }

    private void seeWorthwhile(Fault.Gone gone, long until) throws Fault.Unavailable {
        String text = gone.getMessage();
        if (gone.status == NO_LOG || gone.status == HALF || text.contains("another protocol")) {
            throw new Fault.Unavailable("the log " + made.log + " isn't this manager's", gone);
        }
        if (gone.status == SHUT) {
            throw new Fault.Unavailable("look at the databases first, and then say xatm log --open " + made.log, gone);
        }
        if (text.contains(Coordinator.OLDER)) {
            throw new Fault.Unavailable("Builder.program is to be the xatm of this driver's version, and not " + made.program, gone);
        }
        if (System.nanoTime() > until) {
            throw new Fault.Unavailable(text + ". Does another manager have the log " + made.log + ", and is the program right?", gone);
        }
        if (text.contains("doesn't start") || text.contains("failed to execute")) {
            throw new Fault.Unavailable("the program " + made.program + " can't be started: give its path to Builder.program", gone);
        }
    }

    private void tick() {
        seeDone(() -> {
            rms.forEach(ResourceManager::tidy);
            if (!isClosed) {
                session().tick();
            }
            return null;
        });
    }

    private void watch() {
        seeDone(() -> {
            Session up = begun;
            if (up != null && !up.coordinator.isGone()) {
                up.watch(made.patience.toNanos());
            }
            return null;
        });
    }

    /** Whatever goes wrong in it, it is done again a second later. */
    private static void seeDone(Duty<?> duty) {
        try {
            duty.fulfil();
        } catch (Fault | RuntimeException | Error error) {
            try {
                LOG.log(Level.WARNING, () -> "no coordinator: " + error.getMessage());
            } catch (RuntimeException | Error second) {
                // There may be no memory for that.
            }
        }
    }

    /** What became of a transaction of the session before; unknown if nobody can say so now. */
    Outcome fateOf(String gtrid) {
        try {
            session();
        } catch (Fault error) {
            LOG.log(Level.WARNING, () -> "no coordinator: " + error.getMessage());
        }
        return outcomes.await(gtrid, made.patience);
    }

    /**
     * Has work done later, by a thread of its own, since it may wait for a resource. Once the
     * manager is closed it is done at once.
     */
    Future<?> later(Runnable work, Duration delay) {
        FutureTask<Void> task = new FutureTask<>(() -> begin(work), null);
        try {
            return clock.schedule(task, delay.toMillis(), TimeUnit.MILLISECONDS);
        } catch (RejectedExecutionException closed) {
            Aside.run(work);
            return task;
        }
    }

    private void begin(Runnable work) {
        try {
            Aside.run(work);
        } catch (Error error) {
            // There is no thread to be had now.
            later(work, Duration.ofSeconds(1));
        }
    }

    ResourceManager resourceManager(Resource resource) throws Fault.Unavailable {
        for (ResourceManager rm : rms) {
            if (rm.resource == resource) {
                return rm;
            }
        }
        throw new Fault.Unavailable(resource.name() + " is no resource of this manager: give it to Builder.resource");
    }

    /** The resource that an XAResource belongs to, which is one of this manager's. */
    public Resource ownerOf(XAResource xaResource) throws Fault {
        if (xaResource instanceof OwnedXaResource) {
            return ((OwnedXaResource) xaResource).owner();
        }
        for (ResourceManager rm : rms) {
            if (rm.isSame(xaResource)) {
                return rm.resource;
            }
        }
        throw new Fault.Unavailable("the XAResource " + xaResource.getClass().getName() + " belongs to none of the resources "
            + rms + ": give its pool the xaDataSource() of one of them, which says so");
    }

    /** The resources that take part. */
    public List<Resource> resources() {
        return List.copyOf(made.resources);
    }

    /**
     * Its name, as the identifiers of its branches have it; empty if the log was made without one.
     */
    public String name() {
        return names.manager;
    }

    /** The time-out of a transaction that sets none of its own. */
    public Duration timeout() {
        return made.timeout;
    }

    // ** transactions of threads

    /** Begins a transaction. It belongs to no thread yet. */
    public GlobalTransaction begin(Duration timeout) throws Fault {
        if (isClosed) {
            throw new Fault.Unavailable("the manager is closed");
        }
        GlobalTransaction transaction = new GlobalTransaction(this, timeout);
        counts.begin();
        transaction.startClock();
        return transaction;
    }

    /**
     * The transaction of this thread, or null. One that was ended, by whichever thread, is no
     * thread's any more.
     */
    public GlobalTransaction current() {
        GlobalTransaction transaction = current.get();
        if (transaction != null && transaction.isEnded()) {
            current.remove();
            return null;
        }
        return transaction;
    }

    /** Gives this thread a transaction, or none (null). */
    public void associate(GlobalTransaction transaction) {
        if (transaction == null) {
            current.remove();
        } else {
            current.set(transaction);
        }
    }

    /** How many branches and recoveries wait for a resource that can't be reached. */
    public int owing() {
        Session up = session;
        return up == null ? 0 : up.owing();
    }

    /**
     * How many transactions were begun, are open, committed, rolled back, unknown, over their time
     * (timed_out), and had an end that a resource made by itself (heuristic); for how many seconds
     * they were open; how many sessions the coordinator had; and what is owed.
     */
    public Map<String, Number> counts() {
        Map<String, Number> found = counts.shown();
        found.put("owed", owing());
        return found;
    }

    /**
     * The last ends that a resource made by itself, also those of which no program was told since
     * it had its answer by then.
     */
    public List<String> heuristicEnds() {
        return counts.heuristicEnds();
    }

    Path log() {
        return made.log;
    }

    /** The session, or null. */
    Session up() {
        return session;
    }

    /** A connection for work outside of any transaction. */
    public Borrowed borrow(Resource resource) throws Fault {
        return borrow(resource, resource.pooling().wait);
    }

    /** The same, which waits so long for one. */
    public Borrowed borrow(Resource resource, Duration patience) throws Fault {
        return resourceManager(resource).borrowOutside(patience);
    }

    /**
     * Ends it: no transaction begins any more. Waits for what is under way, and rolls back what is
     * open after {@link Builder#grace}.
     */
    @Override
    public void close() {
        synchronized (starting) {
            if (isClosed) {
                return;
            }
            isClosed = true;
        }
        Session last = session;
        if (last != null && !last.coordinator.isGone()) {
            last.drain(made.grace);
        }
        clock.shutdownNow();
        if (last != null && !last.coordinator.isGone()) {
            last.quit();
        }
        if (last != null) {
            last.abandon();
        }
        seconds.shutdownNow();
        bean.unregister();
        helpers.stop();
        rms.forEach(ResourceManager::close);
        closeCommitted();
    }

    private void closeCommitted() {
        if (committed != null) {
            committed.close();
        }
    }
}
