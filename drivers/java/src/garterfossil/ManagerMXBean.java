package garterfossil;

import java.util.List;
import java.util.Map;

/** What JMX shows of a manager, as {@code garterfossil:type=Manager,name=NAME}. */
public interface ManagerMXBean {
    /** The manager's name, as the identifiers of its branches have it. */
    String getName();

    /** The file of its log. */
    String getLog();

    /** The number of the coordinator's session; 0 if there is none. */
    long getIncarnation();

    /** Whether the coordinator is up, and nobody has to look at anything first. */
    boolean isUp();

    /** Why it isn't; null if it is. */
    String getWhyNot();

    /**
     * How many transactions were begun, are open, committed, rolled back, unknown, over their time,
     * ended by a resource itself, and sessions.
     */
    Map<String, Double> getCounts();

    /** How many branches and recoveries wait for a resource that can't be reached. */
    int getOwing();

    /** The transactions that have branches: by which thread, for how long, at which resources. */
    List<String> getOpenTransactions();

    /**
     * Of the resources, by their names: connections in use, those that are idle, how many may be,
     * what is owed, and whether it is recovered (1).
     */
    Map<String, Map<String, Integer>> getResources();

    /** The last ends that a resource made by itself. */
    List<String> getHeuristicEnds();
}
