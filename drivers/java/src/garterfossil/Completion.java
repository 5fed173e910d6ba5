package garterfossil;

/** What a program wants to do around the end of a transaction. */
public interface Completion {
    /**
     * Before its first phase: work may go on, and an exception lets it roll back. Isn't called
     * where it is rolled back.
     */
    void before();

    /** After its end. */
    void after(Outcome outcome);
}
