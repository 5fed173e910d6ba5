package garterfossil;

import java.time.Duration;
import java.util.Map;
import java.util.Set;
import java.util.concurrent.CompletableFuture;
import java.util.concurrent.ConcurrentHashMap;
import java.util.concurrent.TimeUnit;
import java.util.stream.Collectors;

/**
 * Transactions whose votes were told, and to which the coordinator didn't reply before it ended:
 * the very next session knows what became of them.
 */
final class Outcomes {
    private final Map<String, CompletableFuture<Outcome>> expected = new ConcurrentHashMap<>();
    // What was found, and isn't told yet.
    private final Map<String, Outcome> found = new ConcurrentHashMap<>();

    /** Its votes are about to be told. */
    void expect(String gtrid) {
        expected.put(gtrid, new CompletableFuture<>());
    }

    /** The reply has come. */
    void forget(String gtrid) {
        expected.remove(gtrid);
    }

    /** The next session begins, and is asked: which of them are committed. */
    Set<String> find(Coordinator coordinator) throws Fault {
        for (String gtrid : expected.keySet()) {
            Outcome fate = coordinator.told(coordinator.post("fate " + gtrid)).outcome;
            if (fate == null) {
                throw new Fault.Refused("the coordinator doesn't say what became of " + gtrid);
            }
            // Later ones don't know it any more.
            found.putIfAbsent(gtrid, fate);
        }
        return found.keySet().stream().filter(gtrid -> found.get(gtrid) == Outcome.COMMITTED).collect(Collectors.toSet());
    }

    /** Whatever is to have the decisions first has them: the threads that wait are told. */
    void tell() {
        found.forEach((gtrid, fate) -> expected.getOrDefault(gtrid, new CompletableFuture<>()).complete(fate));
        found.clear();
    }

    /** What became of it; unknown, if no session can tell in time. */
    Outcome await(String gtrid, Duration patience) {
        CompletableFuture<Outcome> fate = expected.get(gtrid);
        try {
            return fate == null ? Outcome.UNKNOWN : fate.completeOnTimeout(Outcome.UNKNOWN, patience.toMillis(), TimeUnit.MILLISECONDS).join();
        } finally {
            expected.remove(gtrid);
        }
    }
}
