package garterfossil;

import java.time.Duration;

/** What the kinds of resources have in common: a name, and a pool of connections. */
public abstract class PooledResource<R extends PooledResource<R>> implements Resource {
    private final String name;
    private int maxConnections;
    private Pooling pooling = Pooling.usual();
    private Duration patience = Duration.ofSeconds(10);
    private volatile String manager = "";
    private volatile Known known;

    /** One of this name, which has so many connections if nothing else is said. */
    protected PooledResource(String name, int maxConnections) {
        this.name = name;
        this.maxConnections = maxConnections;
    }

    /** This one. */
    protected abstract R self();

    /**
     * How many connections there may be at a time, beside one for the recovery: 32 if none is
     * given, of a broker 16. Don't make that less later.
     */
    public R maxConnections(int count) {
        Manager.require(count >= 1, "maxConnections: 1 or more, and not " + count);
        maxConnections = count;
        return self();
    }

    /** How long its connections are waited for, and kept. */
    public R pooling(Pooling given) {
        pooling = given;
        return self();
    }

    /**
     * How long it may be silent, as a connection is made or in one of XA's calls: 10 seconds if
     * none is given. Then the connection is lost.
     */
    public R patience(Duration duration) {
        patience = duration;
        return self();
    }

    @Override
    public String name() {
        return name;
    }

    @Override
    public int maxConnections() {
        return maxConnections;
    }

    @Override
    public Pooling pooling() {
        return pooling;
    }

    @Override
    public Duration patience() {
        return patience;
    }

    @Override
    public void belongTo(String of) {
        manager = of;
    }

    @Override
    public void knownBy(Known it) {
        known = it;
    }

    /** What the log knows of it; null if nothing is to be seen. */
    protected Known known() {
        return known;
    }

    /**
     * The name by which its connections are known as those of the manager and of this resource,
     * with what stands between the parts.
     */
    protected String label(String between) {
        return "garterfossil" + between + (manager.isEmpty() ? "" : manager + between) + name;
    }
}
