package garterfossil;

import java.time.Duration;
import java.util.ArrayList;
import java.util.Collections;
import java.util.HashMap;
import java.util.List;
import java.util.Map;
import java.util.Set;
import java.util.concurrent.ConcurrentHashMap;
import java.util.function.IntSupplier;
import javax.transaction.xa.XAException;
import javax.transaction.xa.XAResource;
import javax.transaction.xa.Xid;

/**
 * A stand-in for a database: it keeps branches by XA's branch state table, and answers otherwise
 * where a test says so.
 */
final class StandInResource implements Resource {
    /** Answers as a lost connection does, once what was asked for is done, or before. */
    static final int LOST_BEFORE = 1001, LOST_AFTER = 1002;

    enum State { ACTIVE, IDLE, ROLLBACK_ONLY, PREPARED }

    final List<String> calls = Collections.synchronizedList(new ArrayList<>());
    /** The same, after the number of the connection. */
    final List<String> callsByLink = Collections.synchronizedList(new ArrayList<>());
    final Map<BranchXid, State> branches = new ConcurrentHashMap<>();
    /** The branches that were committed, and those that were rolled back. */
    final List<BranchXid> committed = Collections.synchronizedList(new ArrayList<>()), rolledBack = Collections.synchronizedList(new ArrayList<>());
    volatile boolean isDown;
    /** Whether connections that are made from now on take xa_end and xa_prepare by one request. */
    volatile boolean isPreparedAtEnd;
    /**
     * Before each call; before a connection is made, and before others are ended for that; and
     * before one is made as new.
     */
    volatile Runnable before = () -> { }, beforeConnect = () -> { }, beforeEnd = () -> { }, beforeReset = () -> { };
    volatile Duration patience = Duration.ofSeconds(10);
    /** What it calls itself; null if it has nothing of the kind. */
    volatile String identity;
    private volatile Known known;
    /** The connections that weren't ended by the last {@code endOthers}. */
    volatile Set<Long> lastKept = Set.of();
    private final List<StandInLink> links = Collections.synchronizedList(new ArrayList<>());
    private final String name;
    private final Map<String, IntSupplier> answers = new HashMap<>();
    private final int max;
    private long numbers;

    StandInResource(String name, int max) {
        this.name = name;
        this.max = max;
    }

    StandInResource(String name) {
        this(name, 8);
    }

    /** It is restarted: each connection is lost, with what is active on it. */
    void restart() {
        List.copyOf(links).forEach(StandInLink::close);
        links.clear();
    }

    /** The next call of this name is answered by the code. */
    synchronized void answer(String call, int code) {
        answers.put(call, () -> code);
    }

    private synchronized int toldFor(String call) {
        IntSupplier told = answers.remove(call);
        return told == null ? 0 : told.getAsInt();
    }

    @Override
    public String name() {
        return name;
    }

    @Override
    public void belongTo(String manager) {
    }

    @Override
    public Duration patience() {
        return patience;
    }

    @Override
    public void knownBy(Known it) {
        known = it;
    }

    @Override
    public int maxConnections() {
        return max;
    }

    @Override
    public void endOthers(Set<Long> kept) throws Fault.Lost {
        beforeEnd.run();
        if (isDown) {
            throw new Fault.Lost("down", null);
        }
        if (known != null) {
            known.see(identity, "the place of " + name);
        }
        lastKept = Set.copyOf(kept);
        calls.add("endOthers");
    }

    @Override
    public synchronized Link connect() throws Fault.Lost {
        beforeConnect.run();
        if (isDown) {
            throw new Fault.Lost("no connection to " + name, null);
        }
        if (known != null) {
            known.see(identity, "the place of " + name);
        }
        return isPreparedAtEnd ? new LinkThatPreparesAtEnd(++numbers) : new StandInLink(++numbers);
    }

    /** A connection that takes xa_end and xa_prepare by one request. */
    private final class LinkThatPreparesAtEnd extends StandInLink implements PreparesAtEnd {
        LinkThatPreparesAtEnd(long number) {
            super(number);
        }

        @Override
        public int endAndPrepare(Xid xid) throws XAException {
            return make("end and prepare", xid, () -> {
                move(xid, State.PREPARED, State.ACTIVE);
                return XA_OK;
            });
        }
    }

    class StandInLink implements Link, XAResource {
        private final long number;
        private BranchXid own;
        private boolean isLost;

        StandInLink(long number) {
            this.number = number;
            links.add(this);
        }

        @Override
        public XAResource xaResource() {
            return this;
        }

        @Override
        public long number() {
            return number;
        }

        @Override
        public boolean isUsable() {
            return !isLost && !isDown;
        }

        @Override
        public boolean reset() {
            beforeReset.run();
            return isUsable();
        }

        @Override
        public void close() {
            isLost = true;
            if (own != null && branches.get(own) != State.PREPARED) {
                branches.remove(own);
            }
        }

        interface Does {
            int it() throws XAException;
        }

        int make(String call, Xid xid, Does does) throws XAException {
            before.run();
            calls.add(call);
            callsByLink.add(number + " " + call);
            int told = toldFor(call);
            if (isDown || isLost || told == LOST_BEFORE) {
                isLost = true;
                throw new XAException(XAException.XAER_RMFAIL);
            }
            if (told != 0 && told != LOST_AFTER) {
                if (told >= 100 && told <= 107) {
                    branches.remove(BranchXid.copyOf(xid));
                }
                if (told == XAResource.XA_RDONLY) {
                    branches.remove(BranchXid.copyOf(xid));
                    return told;
                }
                throw new XAException(told);
            }
            int code = does.it();
            if (told == LOST_AFTER) {
                isLost = true;
                throw new XAException(XAException.XAER_RMFAIL);
            }
            return code;
        }

        void move(Xid xid, State into, State... from) throws XAException {
            State state = branches.get(BranchXid.copyOf(xid));
            if (state == null) {
                throw new XAException(XAException.XAER_NOTA);
            }
            if (!List.of(from).contains(state)) {
                throw new XAException(XAException.XAER_PROTO);
            }
            if (into == null) {
                branches.remove(BranchXid.copyOf(xid));
            } else {
                branches.put(BranchXid.copyOf(xid), into);
            }
        }

        @Override
        public void start(Xid xid, int flags) throws XAException {
            make("start", xid, () -> {
                own = BranchXid.copyOf(xid);
                branches.put(own, State.ACTIVE);
                return 0;
            });
        }

        @Override
        public void end(Xid xid, int flags) throws XAException {
            make(flags == TMFAIL ? "end TMFAIL" : "end", xid, () -> {
                move(xid, flags == TMFAIL ? State.ROLLBACK_ONLY : State.IDLE, State.ACTIVE);
                return 0;
            });
        }

        @Override
        public int prepare(Xid xid) throws XAException {
            return make("prepare", xid, () -> {
                move(xid, State.PREPARED, State.IDLE);
                return XA_OK;
            });
        }

        @Override
        public void commit(Xid xid, boolean isOnePhase) throws XAException {
            make(isOnePhase ? "commit TMONEPHASE" : "commit", xid, () -> {
                move(xid, null, isOnePhase ? State.IDLE : State.PREPARED);
                committed.add(BranchXid.copyOf(xid));
                return 0;
            });
        }

        @Override
        public void rollback(Xid xid) throws XAException {
            make("rollback", xid, () -> {
                move(xid, null, State.IDLE, State.PREPARED, State.ROLLBACK_ONLY);
                rolledBack.add(BranchXid.copyOf(xid));
                return 0;
            });
        }

        @Override
        public void forget(Xid xid) throws XAException {
            make("forget", xid, () -> {
                move(xid, null, State.PREPARED);
                return 0;
            });
        }

        @Override
        public Xid[] recover(int flags) throws XAException {
            make("recover", null, () -> 0);
            return (flags & TMSTARTRSCAN) == 0 ? new Xid[0]
                : branches.entrySet().stream().filter(it -> it.getValue() == State.PREPARED).map(Map.Entry::getKey).toArray(Xid[]::new);
        }

        @Override
        public boolean isSameRM(XAResource other) {
            return false;
        }

        @Override
        public int getTransactionTimeout() {
            return 0;
        }

        @Override
        public boolean setTransactionTimeout(int seconds) {
            return false;
        }
    }
}
