package garterfossil;

import java.time.Duration;
import java.util.ArrayDeque;
import java.util.ArrayList;
import java.util.Collections;
import java.util.List;
import java.util.Set;
import java.util.concurrent.CompletableFuture;
import java.util.concurrent.ConcurrentHashMap;
import java.util.concurrent.ExecutionException;
import java.util.concurrent.Semaphore;
import java.util.concurrent.TimeUnit;
import java.util.concurrent.TimeoutException;
import java.util.concurrent.atomic.AtomicInteger;
import java.util.concurrent.locks.ReentrantLock;
import javax.transaction.xa.XAException;
import javax.transaction.xa.XAResource;

/** A resource under its number, with a pool of connections to it. */
final class ResourceManager {
    /** For so long a connection that is being made is waited for, by whoever wants one. */
    private static final long LONGEST = TimeUnit.SECONDS.toNanos(60);

    /** A connection that nobody has: since when it was made, and since when that is so. */
    private record Idle(Link link, long born, long since) {
    }

    final int number;
    final Resource resource;
    private final Semaphore places;
    private final Pooling pooling;
    private final Holders holders = new Holders();
    // Since then a connection was lost: others may be, too.
    private volatile long lostAt = System.nanoTime();
    // Under the monitor of this object.
    private final ArrayDeque<Idle> idle = new ArrayDeque<>();
    private int session;
    private boolean isClosed;
    // One connection is made at a time: those that are no one's are ended first. One that took too
    // long, or null, and since when; under that lock.
    private final ReentrantLock connecting = new ReentrantLock();
    private CompletableFuture<Link> pending;
    private long pendingSince;
    private int pendingStrays;
    private final Set<Long> kept = ConcurrentHashMap.newKeySet();
    // Those of them that are lent for work outside of transactions.
    private final Set<Long> outside = ConcurrentHashMap.newKeySet();
    // How often connections came to be no one's any more: those of earlier managers, and later those
    // that were lost; and how many of these times all of them are known to be gone.
    private final AtomicInteger strays;
    private volatile int ended;

    ResourceManager(int number, Resource resource) {
        this(number, resource, true);
    }

    /** Of one that only looks no connections are to be ended. */
    ResourceManager(int number, Resource resource, boolean hasStrays) {
        strays = new AtomicInteger(hasStrays ? 1 : 0);
        this.number = number;
        this.resource = resource;
        pooling = resource.pooling();
        places = new Semaphore(resource.maxConnections(), true);
    }

    @Override
    public String toString() {
        return resource.name();
    }

    // ** the pool

    /** A connection, of the pool or a new one. Waits for a place. */
    Lease borrow(Duration patience) throws Fault {
        Aside.take(places, patience, "a connection to " + this, () -> "all " + resource.maxConnections() + " connections to " + this + " are in use for "
            + patience.toSeconds() + " s, by " + holders + ". Let the pool have more, or end transactions sooner");
        try {
            int lentIn;
            synchronized (this) {
                lentIn = session;
            }
            Idle found = fromPool();
            return found != null ? new Lease(found.link, lentIn, found.born) : new Lease(connect(patience), lentIn, System.nanoTime());
        } catch (Fault | RuntimeException | Error error) {
            places.release();
            throw error;
        }
    }

    private Idle fromPool() {
        while (true) {
            Idle found;
            synchronized (this) {
                found = idle.pollLast();
            }
            boolean isFresh = found != null && found.since - lostAt > 0 && System.nanoTime() - found.since < pooling.test.toNanos();
            if (found == null || isFresh || found.link.isUsable()) {
                return found;
            }
            discard(found.link);
        }
    }

    /** Closes what is idle for too long, or too old, and warns of what is in use for too long. */
    void tidy() {
        List<Idle> over = new ArrayList<>();
        long now = System.nanoTime();
        synchronized (this) {
            idle.removeIf(it -> (now - it.since > pooling.idle.toNanos() || now - it.born > pooling.life.toNanos()) && over.add(it));
        }
        over.forEach(it -> discard(it.link));
        holders.warn(this, pooling.leak);
    }

    synchronized int idle() {
        return idle.size();
    }

    int used() {
        return holders.count();
    }

    /** A connection for work outside of any transaction: it stays while sessions come and go. */
    Lease borrowOutside(Duration patience) throws Fault {
        Lease lease = borrow(patience);
        outside.add(lease.link.number());
        return lease;
    }

    /** A connection that is lent, in a session. */
    final class Lease implements Borrowed {
        final Link link;
        private final int lentIn;
        private final long born;
        private boolean isOver;

        private Lease(Link link, int lentIn, long born) {
            this.link = link;
            this.lentIn = lentIn;
            this.born = born;
            holders.add(this, pooling.leak.compareTo(Duration.ofDays(365)) < 0);
        }

        @Override
        public Link link() {
            return link;
        }

        /** It isn't needed any more, and has no branch. */
        @Override
        public void giveBack() {
            if (!isOver) {
                isOver = true;
                boolean isKept = false;
                try {
                    isKept = !link.isLetOut() && link.reset() && keep();
                } finally {
                    leave(isKept);
                }
            }
        }

        /** For the next one. False if it can't be kept. */
        private boolean keep() {
            synchronized (ResourceManager.this) {
                return lentIn == session && !isClosed && System.nanoTime() - born < pooling.life.toNanos()
                    && idle.offerLast(new Idle(link, born, System.nanoTime()));
            }
        }

        /** Its place is free, whatever becomes of the connection. */
        private void leave(boolean isKept) {
            holders.remove(this);
            outside.remove(link.number());
            try {
                if (!isKept) {
                    lostAt = link.isLetOut() ? lostAt : System.nanoTime();
                    discard(link);
                }
            } finally {
                places.release();
            }
        }

        /** It is lost, or what is on it is. */
        @Override
        public void lose() {
            if (!isOver) {
                isOver = true;
                leave(false);
            }
        }
    }

    /** Whether the XAResource belongs to this resource, as it says itself. */
    boolean isSame(XAResource xaResource) throws Fault {
        Lease lease = borrow(Duration.ofSeconds(10));
        try {
            return lease.link.isSame(xaResource);
        } catch (XAException | RuntimeException error) {
            return false;
        } finally {
            lease.giveBack();
        }
    }

    // ** new connections

    /**
     * A connection that isn't the pool's. Waits so long for it: a thread of its own makes it, since
     * a resource may be silent, and whoever asks next waits for the same.
     */
    Link connect(Duration patience) throws Fault.Lost {
        Duration longest = patience.compareTo(resource.patience()) < 0 ? patience : resource.patience();
        long until = System.nanoTime() + longest.toNanos();
        boolean isMine = false;
        try {
            isMine = connecting.tryLock() || connecting.tryLock(longest.toNanos(), TimeUnit.NANOSECONDS);
            if (!isMine) {
                throw new TimeoutException();
            }
            // One that was begun before another connection was lost hasn't seen that this is gone.
            if (pendingStrays != strays.get() || System.nanoTime() - pendingSince > LONGEST) {
                giveUpPending();
            }
            if (pending == null) {
                pendingSince = System.nanoTime();
                pending = begun();
            }
            Link link = pending.get(Math.max(1, until - System.nanoTime()), TimeUnit.NANOSECONDS);
            pending = null;
            kept.add(link.number());
            return link;
        } catch (TimeoutException error) {
            throw new Fault.Lost("no connection to " + this + ", which has said nothing for " + longest.toMillis() + " ms", null);
        } catch (ExecutionException error) {
            pending = null;
            Exception cause = Aside.causeOf(error);
            if (cause instanceof Fault.Lost lost) {
                throw lost;
            }
            throw (RuntimeException) cause;
        } catch (InterruptedException error) {
            Thread.currentThread().interrupt();
            throw new Fault.Lost("interrupted while a connection to " + this + " was made", error);
        } finally {
            if (isMine) {
                connecting.unlock();
            }
        }
    }

    private CompletableFuture<Link> begun() {
        CompletableFuture<Link> made = new CompletableFuture<>();
        int seen = strays.get();
        pendingStrays = seen;
        Aside.run(() -> {
            try {
                if (ended != seen) {
                    resource.endOthers(Collections.unmodifiableSet(kept));
                    ended = seen;
                }
                made.complete(resource.connect());
            } catch (Fault.Lost | RuntimeException | Error error) {
                made.completeExceptionally(error);
            }
        });
        return made;
    }

    /** Nobody waits for it any more. */
    private void giveUpPending() {
        if (pending != null) {
            pending.thenAccept(Link::close);
            pending = null;
        }
    }

    /** A connection of another pool is no one's any more. */
    void noteStray() {
        strays.incrementAndGet();
    }

    /** Whether one may be there still: also while it is being ended. */
    boolean hasStrays() {
        return ended != strays.get();
    }

    /** The connection is closed, and before the next one is made it is seen that it is gone. */
    void discard(Link link) {
        try {
            link.close();
        } finally {
            kept.remove(link.number());
            noteStray();
        }
    }

    /**
     * Gives all connections up: a session begins, and what the last one had under way must not
     * happen any more.
     */
    void startAnew() {
        List<Idle> old;
        synchronized (this) {
            session++;
            old = List.copyOf(idle);
            idle.clear();
        }
        old.forEach(it -> it.link.close());
        kept.retainAll(outside);
        resource.startAnew();
        noteStray();
        if (connecting.tryLock()) {
            // It would be taken for one of the last session's.
            giveUpPending();
            connecting.unlock();
        }
    }

    void close() {
        synchronized (this) {
            isClosed = true;
        }
        startAnew();
    }
}
