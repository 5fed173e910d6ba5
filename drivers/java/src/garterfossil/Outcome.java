package garterfossil;

/** How a transaction stands. */
public enum Outcome {
    /** Work may go on. */
    ACTIVE,
    /** Work may go on, but it will be rolled back. */
    MARKED_ROLLBACK,
    /** The votes are collected. */
    PREPARING,
    /** It is being committed. */
    COMMITTING,
    /** It is being rolled back. */
    ROLLING_BACK,
    /** It is committed. */
    COMMITTED,
    /** It is rolled back. */
    ROLLED_BACK,
    /** It is over, and nobody knows how. */
    UNKNOWN;

    /** Whether work may go on. */
    public boolean isOpen() {
        return this == ACTIVE || this == MARKED_ROLLBACK;
    }

    /** Whether it is over. */
    public boolean isOver() {
        return this == COMMITTED || this == ROLLED_BACK || this == UNKNOWN;
    }
}
