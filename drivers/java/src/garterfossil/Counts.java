package garterfossil;

import java.util.ArrayDeque;
import java.util.ArrayList;
import java.util.LinkedHashMap;
import java.util.List;
import java.util.Map;

/**
 * Counts of what a manager has done since it was made; the names are those of the driver in Python.
 */
final class Counts {
    /** So many ends are told, the last ones. */
    private static final int MOST_TOLD = 100;

    private long begun, committed, rolledBack, unknown, timedOut, heuristic, sessions;
    private double seconds;
    private final ArrayDeque<String> heuristicEnds = new ArrayDeque<>();

    synchronized void begin() {
        begun++;
    }

    /** A transaction is over, that was open for so many nanoseconds. */
    synchronized void end(Outcome outcome, long nanos) {
        committed += outcome == Outcome.COMMITTED ? 1 : 0;
        rolledBack += outcome == Outcome.ROLLED_BACK ? 1 : 0;
        unknown += outcome == Outcome.UNKNOWN ? 1 : 0;
        seconds += nanos / 1e9;
    }

    synchronized void timeOut() {
        timedOut++;
    }

    synchronized void session() {
        sessions++;
    }

    /** A resource ended a branch by itself: the log has a record. */
    synchronized void heuristicEnd(BranchXid xid, ResourceManager rm, String call, int code) {
        heuristic++;
        String text = call + " of " + xid + " at " + rm + " is answered " + Code.name(code) + ": the resource ended it by itself. The log has a record";
        if (heuristicEnds.size() == MOST_TOLD) {
            heuristicEnds.removeFirst();
        }
        heuristicEnds.addLast(java.time.Instant.now() + " " + text);
        Manager.LOG.log(System.Logger.Level.ERROR, text);
    }

    synchronized List<String> heuristicEnds() {
        return new ArrayList<>(heuristicEnds);
    }

    synchronized Map<String, Number> shown() {
        Map<String, Number> found = new LinkedHashMap<>();
        found.put("begun", begun);
        found.put("open", begun - committed - rolledBack - unknown);
        found.put("committed", committed);
        found.put("rolled_back", rolledBack);
        found.put("unknown", unknown);
        found.put("timed_out", timedOut);
        found.put("heuristic", heuristic);
        found.put("seconds", seconds);
        found.put("sessions", sessions);
        return found;
    }
}
