package garterfossil;

import java.time.Duration;
import java.util.Set;

/**
 * A database or a message broker that takes part in transactions: how it is reached. Its methods
 * may be called by any thread.
 */
public interface Resource {
    /** Its name, by which the log knows it: it stays as long as the log does. */
    String name();

    /**
     * The manager has this name, or none (""): {@link #endOthers} ends no connections of a manager
     * of another name.
     */
    void belongTo(String manager);

    /**
     * What the log knows of it: each connection that is made is to be told to this, before anything
     * else is done on it.
     */
    default void knownBy(Known known) {
    }

    /** A new connection. */
    Link connect() throws Fault.Lost;

    /**
     * Ends all connections that this manager ever had to the resource, except those of these
     * numbers, and waits until they are gone: what they had under way can't happen any more.
     */
    void endOthers(Set<Long> kept) throws Fault.Lost;

    /** The statement by which somebody makes a call of XA on a prepared branch by hand. */
    default String byHand(String call, BranchXid xid) {
        return "make the call " + call + " of " + xid;
    }

    /** How many connections it may have at a time. */
    int maxConnections();

    /** How long its connections are waited for, and kept. */
    default Pooling pooling() {
        return Pooling.usual();
    }

    /**
     * A session begins: {@link #endOthers} ends what other pools have, too, as far as that was
     * there before.
     */
    default void startAnew() {
    }

    /** How long it may be silent, as a connection is made or in one of XA's calls. */
    default Duration patience() {
        return Duration.ofSeconds(10);
    }
}
