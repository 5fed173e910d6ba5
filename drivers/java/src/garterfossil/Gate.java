package garterfossil;

import java.util.concurrent.TimeUnit;
import java.util.concurrent.locks.ReentrantLock;

/**
 * Lets the program's work on a connection through until it is shut. After xa_end a connection is an
 * ordinary one again, and a statement on it would be committed by itself: so whoever ends a branch
 * shuts its gate first.
 */
public final class Gate {
    /** What may be cut short, as a statement that runs. */
    public interface Work {
        /** Cuts it short, from another thread. */
        void cancel() throws Exception;
    }

    private final ReentrantLock lock = new ReentrantLock();
    private volatile Work work;
    private volatile String reason;

    /** Lets some work in. */
    public void enter(Work entering) throws Fault.Unavailable {
        lock.lock();
        if (reason != null) {
            lock.unlock();
            throw new Fault.Unavailable(reason);
        }
        work = entering;
    }

    /** The work is over. */
    public void leave() {
        if (lock.getHoldCount() == 1) {
            work = null;
        }
        lock.unlock();
    }

    /** Whether it is shut. */
    public boolean isShut() {
        return reason != null;
    }

    /** Lets nothing in any more. What is inside goes on. */
    void bar(String because) {
        reason = reason == null ? because : reason;
    }

    /**
     * The same, and waits so many milliseconds for what is inside, if that is more than none, and
     * then cuts it short. False if it doesn't end.
     */
    boolean shut(String because, long patience) {
        bar(because);
        if (isLeft(patience)) {
            return true;
        }
        cancel();
        return isLeft(2000);
    }

    /** Cuts short what is inside. */
    void cancel() {
        Work running = work;
        if (running != null) {
            try {
                running.cancel();
            } catch (Exception error) {
                Manager.LOG.log(System.Logger.Level.DEBUG, "can't be cut short", error);
            }
        }
    }

    /** An interrupt waits: it isn't work that goes on. */
    private boolean isLeft(long patience) {
        long until = System.nanoTime() + patience * 1_000_000;
        boolean isFree = Aside.<Boolean, RuntimeException>uninterrupted(() -> lock.tryLock(until - System.nanoTime(), TimeUnit.NANOSECONDS));
        if (isFree) {
            lock.unlock();
        }
        return isFree;
    }
}
