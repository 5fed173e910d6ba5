package garterfossil;

import java.time.Duration;
import java.util.concurrent.Callable;
import java.util.concurrent.CompletableFuture;
import java.util.concurrent.ExecutionException;
import java.util.concurrent.ExecutorService;
import java.util.concurrent.Semaphore;
import java.util.concurrent.SynchronousQueue;
import java.util.concurrent.ThreadFactory;
import java.util.concurrent.ThreadPoolExecutor;
import java.util.concurrent.TimeUnit;
import java.util.concurrent.TimeoutException;
import java.util.function.Consumer;
import java.util.function.Supplier;

/**
 * Threads for what may wait for a resource that is silent: each such thing has one of its own, and
 * keeps nothing else waiting. And how the driver waits.
 */
public final class Aside {
    private static final ExecutorService THREADS = new ThreadPoolExecutor(0, Integer.MAX_VALUE, 10, TimeUnit.SECONDS, new SynchronousQueue<>(),
        daemons("clock"));

    /** What is waited for. */
    interface Wait<T, E extends Exception> {
        T made() throws InterruptedException, E;
    }

    private Aside() {
    }

    /** Threads of the manager's own, which keep no program up. */
    static ThreadFactory daemons(String name) {
        return work -> {
            Thread thread = new Thread(work, "garterfossil " + name);
            thread.setDaemon(true);
            return thread;
        };
    }

    /** Has work done, and doesn't wait for it. */
    public static void run(Runnable work) {
        THREADS.execute(work);
    }

    /**
     * Has work done, and waits so long for it: an interrupt waits, too. If it isn't over by then,
     * what it makes goes to {@code late} once it is, and TimeoutException is thrown; else what the
     * work throws.
     */
    public static <T> T within(Duration longest, Callable<T> work, Consumer<T> late) throws Exception {
        CompletableFuture<T> made = new CompletableFuture<>();
        run(() -> {
            try {
                made.complete(work.call());
            } catch (Exception | Error error) {
                made.completeExceptionally(error);
            }
        });
        long until = System.nanoTime() + longest.toNanos();
        try {
            return Aside.<T, Exception>uninterrupted(() -> made.get(Math.max(1, until - System.nanoTime()), TimeUnit.NANOSECONDS));
        } catch (TimeoutException error) {
            made.thenAccept(late);
            throw error;
        } catch (ExecutionException error) {
            throw causeOf(error);
        }
    }

    /** What failed in another thread. An error of the Java machine is thrown here, too. */
    static Exception causeOf(ExecutionException failed) {
        if (failed.getCause() instanceof Error error) {
            throw error;
        }
        return (Exception) failed.getCause();
    }

    /** Waits for something, and again after an interrupt, which waits too. */
    static <T, E extends Exception> T uninterrupted(Wait<T, E> wait) throws E {
        boolean isInterrupted = false;
        try {
            while (true) {
                try {
                    return wait.made();
                } catch (InterruptedException error) {
                    isInterrupted = true;
                }
            }
        } finally {
            if (isInterrupted) {
                Thread.currentThread().interrupt();
            }
        }
    }

    /** Takes one of so many places, and waits so long for it. */
    static void take(Semaphore places, Duration patience, String what, Supplier<String> fault) throws Fault.Unavailable {
        try {
            if (!places.tryAcquire() && !places.tryAcquire(patience.toNanos(), TimeUnit.NANOSECONDS)) {
                throw new Fault.Unavailable(fault.get());
            }
        } catch (InterruptedException error) {
            Thread.currentThread().interrupt();
            throw new Fault.Unavailable("interrupted while " + what + " was waited for");
        }
    }

    /** Waits so many milliseconds, between two looks at a resource or at the log. */
    public static void pause(long millis) throws Fault.Lost {
        try {
            Thread.sleep(millis);
        } catch (InterruptedException error) {
            Thread.currentThread().interrupt();
            throw new Fault.Lost("interrupted", error);
        }
    }
}
