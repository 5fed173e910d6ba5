package garterfossil;

import java.util.ArrayList;
import java.util.List;
import java.util.Map;
import java.util.regex.Pattern;

/**
 * What the coordinator replies to a move of a thread: the calls that are to be made next, or the
 * outcome (docs/MOVES.md).
 */
final class Told {
    private static final Map<String, Outcome> OUTCOMES = Map.of("committed", Outcome.COMMITTED, "rolled-back", Outcome.ROLLED_BACK,
        "unknown", Outcome.UNKNOWN);
    private static final Map<String, Outcome> STAGES = Map.of("prepare", Outcome.PREPARING, "commit", Outcome.COMMITTING,
        "commit-at-once", Outcome.COMMITTING, "rollback", Outcome.ROLLING_BACK, "undo", Outcome.ROLLING_BACK);
    private static final String NEXT = " next ";
    private static final Pattern GTRID = Pattern.compile("[0-9a-f]{32}");

    /** The whole line. */
    final String reply;
    /** The call, or the outcome. */
    final String verb;
    /**
     * Where the call is to be made; of an outcome that is rolled back why, and where, if a branch
     * is the reason.
     */
    final List<Integer> rms = new ArrayList<>();
    /**
     * The resource managers with a branch yet to be ended; and those that ended one otherwise, each
     * with how.
     */
    final List<Integer> owed = new ArrayList<>(), mixed = new ArrayList<>();
    /** The thread's next transaction, or null. */
    final String next;
    /** The outcome; null if calls are to be made. */
    final Outcome outcome;
    /** How a transaction stands while these calls are made; null if they don't say so. */
    final Outcome stage;

    private Told(String reply) {
        this.reply = reply;
        int end = (reply + " ").indexOf(NEXT);
        String[] words = (end < 0 ? reply : reply.substring(0, end)).split(" ", -1);
        verb = words[0];
        outcome = OUTCOMES.get(verb);
        stage = STAGES.get(verb);
        next = end < 0 ? null : reply.substring(Math.min(reply.length(), end + NEXT.length()));
        List<Integer> list = rms;
        for (int at = 1; at < words.length; at++) {
            if (words[at].equals("owed") || words[at].equals("mixed")) {
                list = words[at].equals("owed") ? owed : mixed;
            } else {
                list.add(Integer.parseInt(words[at]));
            }
        }
        if (next != null && !GTRID.matcher(next).matches() || mixed.size() % 2 != 0) {
            throw new IllegalArgumentException(reply);
        }
    }

    /** What a reply says. Throws IllegalArgumentException if it is none. */
    static Told of(String reply) throws Fault.Refused {
        if (reply.startsWith("error ")) {
            throw new Fault.Refused(reply);
        }
        try {
            return new Told(reply);
        } catch (IllegalArgumentException error) {
            throw new IllegalArgumentException("the coordinator replied: " + reply);
        }
    }
}
