package garterfossil;

import java.time.Duration;

/**
 * How long connections of a pool are waited for, and kept. Each method gives a copy that differs in
 * one thing.
 */
public final class Pooling {
    /** How long work outside of transactions waits for a connection. */
    final Duration wait;
    /** A connection that was idle for longer is asked whether it works, before it is used. */
    final Duration test;
    /** One that is idle for longer is closed. */
    final Duration idle;
    /** One that is older is closed, once it is idle. */
    final Duration life;
    /** Of one that is in use for longer a warning says by whom. */
    final Duration leak;

    private static final Duration NEVER = Duration.ofDays(36_500);

    private Pooling(Duration wait, Duration test, Duration idle, Duration life, Duration leak) {
        this.wait = wait;
        this.test = test;
        this.idle = idle;
        this.life = life;
        this.leak = leak;
    }

    /**
     * Waits for 30 seconds; asks what was idle for 20 seconds, or since another connection was
     * lost; closes none, and warns of none.
     */
    public static Pooling usual() {
        return new Pooling(Duration.ofSeconds(30), Duration.ofSeconds(20), NEVER, NEVER, NEVER);
    }

    /**
     * How long work outside of transactions waits for a connection. In a transaction it waits for
     * as long as that may take.
     */
    public Pooling waitingFor(Duration duration) {
        return new Pooling(duration, test, idle, life, leak);
    }

    /**
     * After so long a connection that was idle is asked whether it works ({@code
     * Connection.isValid}) before it is used; with zero, each time.
     */
    public Pooling testingAfter(Duration duration) {
        return new Pooling(wait, duration, idle, life, leak);
    }

    /** After so long a connection that is idle is closed. */
    public Pooling closingIdleAfter(Duration duration) {
        return new Pooling(wait, test, duration, life, leak);
    }

    /** A connection that was made before so long is closed, as soon as nobody uses it. */
    public Pooling closingAfter(Duration duration) {
        return new Pooling(wait, test, idle, duration, leak);
    }

    /**
     * Where a connection is in use for longer, a warning says by which thread, and where that got
     * it.
     */
    public Pooling warningAfter(Duration duration) {
        return new Pooling(wait, test, idle, life, duration);
    }
}
