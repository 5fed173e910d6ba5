package garterfossil;

import java.time.Duration;
import javax.transaction.xa.XAException;
import javax.transaction.xa.XAResource;

/** A connection to a resource. It has one branch at a time. */
public interface Link {
    /** What makes XA's calls over it. */
    XAResource xaResource();

    /** Whether an XAResource belongs to the same resource, as it says itself. */
    default boolean isSame(XAResource other) throws XAException {
        return other.isSameRM(xaResource());
    }

    /** The number by which the resource knows the connection; 0 if it has none. */
    long number();

    /** Whether it still works, as the resource says. */
    boolean isUsable();

    /**
     * Whether the program has got what lies under it, as by {@code Connection.unwrap}: work on that
     * goes past the gate, and is only ended by closing the connection.
     */
    default boolean isLetOut() {
        return false;
    }

    /** How long each of XA's calls may take over it from now on; then the connection is lost. */
    default void bound(Duration longest) {
    }

    /**
     * Makes it as it was when new, before another transaction uses it. False if that can't be done.
     */
    boolean reset();

    /** Closes it. What is active on it ends with it, and what is prepared stays so. */
    void close();
}
