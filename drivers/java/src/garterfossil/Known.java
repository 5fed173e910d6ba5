package garterfossil;

/** What a log keeps of one of its resources: which one it is. */
public interface Known {
    /** What the resource called itself as the log was first used with it, or null. */
    String identity();

    /**
     * It calls itself so now, and is reached so; null if it has nothing of the kind. To be told on
     * each connection, before anything else is done on it. Throws if it is another one than it was.
     */
    void see(String identity, String at) throws Fault.Lost;
}
