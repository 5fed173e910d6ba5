package garterfossil;

import javax.transaction.xa.XAResource;

/**
 * An XAResource that says to which resource it belongs: those of a pool that isn't the manager's
 * own.
 */
public interface OwnedXaResource extends XAResource {
    /** The resource that it belongs to. */
    Resource owner();

    /**
     * Ends its connection at once, and what is active on it with that: a program that works on it
     * would go on after the end of its transaction, and each statement would be committed by
     * itself. False if that can't be done.
     */
    default boolean cut() {
        return false;
    }
}
