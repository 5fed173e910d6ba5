package garterfossil;

import java.lang.System.Logger.Level;
import java.util.ArrayList;
import java.util.List;

/**
 * What a program wants to do around the end of a transaction. What is interposed comes closest to
 * the end: last before it, first after it.
 */
final class Completions {
    private final List<Completion> plain = new ArrayList<>(), interposed = new ArrayList<>();

    synchronized void add(Completion completion, boolean isInterposed) {
        (isInterposed ? interposed : plain).add(completion);
    }

    /** One of them by its place, or null. */
    private synchronized Completion at(List<Completion> of, int place) {
        return place < of.size() ? of.get(place) : null;
    }

    /**
     * Before the end, as long as the transaction may still be committed. One may register others.
     */
    void before(GlobalTransaction transaction) {
        try {
            beforeEach(plain, transaction);
            beforeEach(interposed, transaction);
        } catch (RuntimeException | Error error) {
            transaction.fail("a synchronization failed before its end: " + error, error);
        }
    }

    private void beforeEach(List<Completion> of, GlobalTransaction transaction) {
        int place = 0;
        for (Completion it = at(of, place); it != null && transaction.fault() == null; it = at(of, place)) {
            it.before();
            place++;
        }
    }

    /** After the end, once. */
    void after(GlobalTransaction transaction) {
        for (Completion completion : taken()) {
            try {
                completion.after(transaction.outcome());
            } catch (RuntimeException | Error error) {
                Manager.LOG.log(Level.WARNING, "a synchronization failed after the end of " + transaction, error);
            }
        }
    }

    private synchronized List<Completion> taken() {
        List<Completion> all = new ArrayList<>(interposed);
        all.addAll(plain);
        interposed.clear();
        plain.clear();
        return all;
    }
}
