package garterfossil;

import java.lang.System.Logger.Level;
import java.time.Duration;
import java.util.Map;
import java.util.concurrent.ConcurrentHashMap;
import java.util.stream.Collectors;

/** Who has connections of a pool. */
final class Holders {
    private static final int MOST_TOLD = 5;

    private static final class Holder {
        final String thread = Thread.currentThread().getName();
        final long since = System.nanoTime();
        /** Where it got the connection; null where nobody is to be told. */
        final Throwable where;
        boolean isTold;

        Holder(boolean isTraced) {
            where = isTraced ? new Throwable("it was got here") : null;
        }

        long seconds() {
            return (System.nanoTime() - since) / 1_000_000_000;
        }
    }

    private final Map<Object, Holder> all = new ConcurrentHashMap<>();

    void add(Object lease, boolean isTraced) {
        all.put(lease, new Holder(isTraced));
    }

    void remove(Object lease) {
        all.remove(lease);
    }

    int count() {
        return all.size();
    }

    /** Some of them, the oldest first, as a text. */
    @Override
    public String toString() {
        return all.values().stream().sorted((one, other) -> Long.compare(one.since, other.since)).limit(MOST_TOLD)
            .map(it -> "thread '" + it.thread + "' for " + it.seconds() + " s").collect(Collectors.joining(", "));
    }

    /** Warns, once, of each that has one for longer. */
    void warn(Object of, Duration longest) {
        for (Holder it : all.values()) {
            if (!it.isTold && it.seconds() >= longest.toSeconds()) {
                it.isTold = true;
                Manager.LOG.log(Level.WARNING, "a connection to " + of + " is in use for " + it.seconds() + " s, by thread '" + it.thread + "'", it.where);
            }
        }
    }
}
