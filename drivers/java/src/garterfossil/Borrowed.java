package garterfossil;

/** A connection for work outside of any transaction. */
public interface Borrowed {
    /** The connection itself. */
    Link link();

    /** It isn't needed any more. */
    void giveBack();

    /** It doesn't work any more. */
    void lose();
}
