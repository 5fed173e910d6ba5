package garterfossil;

import java.lang.management.ManagementFactory;
import java.util.ArrayList;
import java.util.List;
import java.util.concurrent.ExecutionException;
import java.util.concurrent.Executor;
import java.util.concurrent.FutureTask;
import java.util.concurrent.SynchronousQueue;
import java.util.concurrent.ThreadFactory;
import java.util.concurrent.ThreadPoolExecutor;
import java.util.concurrent.TimeUnit;
import java.util.concurrent.atomic.AtomicInteger;
import java.util.function.Consumer;

/**
 * Threads that make calls at several resources at the same time: the thread that asks makes one,
 * and each helper that is free another. What no helper has begun by then the thread makes itself,
 * so it never waits for a helper to come free.
 */
final class Helpers {
    private static final int PROCESSORS = Runtime.getRuntime().availableProcessors();
    private static final double HIGH = 0.75;

    // Whether the machine's processors are busy; they are taken to be if the system doesn't say.
    private volatile boolean isHigh = true;
    private final int most;
    private final ThreadPoolExecutor threads;
    // How many threads have steps made at this moment.
    private final AtomicInteger asking = new AtomicInteger();

    Helpers(int most) {
        this(most, Aside.daemons("helper"));
    }

    Helpers(int most, ThreadFactory made) {
        this.most = most;
        // Nothing waits there: whom no helper takes a part from makes it itself.
        threads = new ThreadPoolExecutor(0, Math.max(1, most), 60, TimeUnit.SECONDS, new SynchronousQueue<>(), made, (part, full) -> { });
    }

    /** Looks how busy the processors are, once in a while. */
    void look() {
        try {
            double load = ManagementFactory.getOperatingSystemMXBean() instanceof com.sun.management.OperatingSystemMXBean it ? it.getCpuLoad() : 1;
            isHigh = load < 0 || load > HIGH;
        } catch (LinkageError error) {
            isHigh = true;
        }
    }

    /**
     * Makes a step for each branch, and returns once all are made. If the processors are busy with
     * the transactions that are open, this thread makes them all: a helper would only cost one the
     * time to change threads. A branch on a connection of the program's own stays in this thread,
     * too.
     *
     * <p>With {@code isApart} each has a thread of its own in any case, since a resource may be
     * silent, and keeps no other waiting.
     */
    void each(List<Branch> branches, boolean isApart, int open, Consumer<Branch> step) {
        List<FutureTask<Void>> parts = new ArrayList<>(branches.size());
        branches.forEach(branch -> parts.add(new FutureTask<>(() -> step.accept(branch), null)));
        try {
            boolean isHelped = asking.incrementAndGet() <= most && !(open > PROCESSORS && isHigh);
            for (int at = 1; at < parts.size(); at++) {
                if (isApart || isHelped && branches.get(at).link() != null) {
                    give(isApart ? Aside::run : threads, parts.get(at));
                }
            }
            // One that was begun isn't made again.
            parts.forEach(FutureTask::run);
        } finally {
            asking.decrementAndGet();
        }
        seeMade(parts);
    }

    /** Gives the part to another thread. If there is none to be had, this one makes it. */
    private static void give(Executor to, FutureTask<Void> part) {
        try {
            to.execute(part);
        } catch (Error error) {
            // It only takes longer.
        }
    }

    /** Waits until all are made: how they ended has to be known. */
    private static void seeMade(List<FutureTask<Void>> parts) {
        ExecutionException failed = null;
        for (FutureTask<Void> part : parts) {
            try {
                Aside.<Void, ExecutionException>uninterrupted(part::get);
            } catch (ExecutionException error) {
                failed = failed == null ? error : failed;
            }
        }
        if (failed != null) {
            throw (RuntimeException) Aside.causeOf(failed);
        }
    }

    void stop() {
        threads.shutdown();
    }
}
