package garterfossil;

import java.lang.System.Logger.Level;
import java.nio.file.Path;
import java.time.Duration;
import java.util.ArrayList;
import java.util.HashMap;
import java.util.HashSet;
import java.util.LinkedHashMap;
import java.util.List;
import java.util.Map;
import java.util.Queue;
import java.util.Set;
import java.util.concurrent.CompletableFuture;
import java.util.concurrent.ConcurrentLinkedQueue;
import javax.sql.DataSource;

/**
 * The mirror of one session: what the log has decided, in a database that is replicated already. A
 * decision is in it before any xa_commit of it is made, and so a log that is made of it lacks no
 * decision of which a resource has heard.
 */
final class Mirror {
    /** So long a log may take that is made: each of its incarnations is a write that is synced. */
    private static final Duration TO_MAKE = Duration.ofDays(1);
    private static final String FAILED = "a decision was told to the mirror, and that failed";

    /** A decision that a thread tells, and waits for: why it can't be told, or an empty text. */
    private record Decision(String gtrid, List<BranchXid> xids, CompletableFuture<String> told) {
    }

    /** What a resource lists of the manager's; null if it can't be looked at. */
    interface Lister {
        List<BranchXid> listedAt(int rm);
    }

    private final Path log;
    private final Log kept;
    private final List<String> resources;
    // Decisions come by one connection, and leave by another, for which nobody waits.
    private final MirrorTables adding, removing;
    private final Queue<Decision> asked = new ConcurrentLinkedQueue<>();
    private long incarnation;
    // Of what it holds and the log doesn't: what is surely over, and what may not be.
    private final Set<String> surelyOver = new HashSet<>();
    private final Set<String> unknownToLog = new HashSet<>();
    // The branches that are owed, by their transactions; and the transactions whose rows may leave.
    // Under the monitor of this object.
    private final Map<String, Set<BranchXid>> owed = new HashMap<>();
    private final List<String> left = new ArrayList<>();

    /**
     * That of the next session over a log that holds this, with the branches of its decisions, and
     * that is to keep these names of resources.
     */
    Mirror(DataSource source, Path log, Log kept, List<String> resources, Duration patience) throws Fault.Unavailable {
        if (kept.manager.isEmpty()) {
            throw new Fault.Unavailable("a mirror is for a manager with a name, and this log keeps none: give a new log a name, once nothing is in doubt");
        }
        this.log = log.toAbsolutePath();
        this.kept = kept;
        this.resources = resources;
        adding = new MirrorTables(source, kept.manager, patience);
        removing = new MirrorTables(source, kept.manager, patience);
    }

    // ** a session begins

    /**
     * Looks, before the coordinator starts, whether a session may begin over the log. A start that
     * is refused later has raised the log's incarnation, and after a few of them an older log would
     * pass for a newer one.
     */
    void look(String given, Lister lister) throws Fault {
        try {
            adding.make();
            Map<String, List<String>> held = adding.once(at -> {
                long before = adding.incarnation(at);
                if (before < 0 && kept.incarnation == 0) {
                    seeNoOther(adding.managers(at), given);
                }
                if (before > kept.incarnation) {
                    throw older(kept.incarnation, before);
                }
                if (before >= 0 && before < kept.incarnation) {
                    // Starts that the mirror wasn't told of: so there is never more than one.
                    adding.setIncarnation(at, kept.incarnation);
                }
                return adding.decisions(at);
            });
            held.keySet().removeAll(kept.decisions.keySet());
            for (Map.Entry<String, List<String>> it : held.entrySet()) {
                seeOver(it.getKey(), it.getValue(), lister);
            }
        } catch (Fault.Lost error) {
            throw away(error);
        }
    }

    private static Fault.Unavailable away(Fault.Lost error) {
        return new Fault.Unavailable("the mirror can't be used now", error);
    }

    /** Sees that a new log isn't at the place of one that a lost machine had. */
    private void seeNoOther(Map<String, String> managers, String given) throws Fault.Unavailable {
        for (Map.Entry<String, String> it : managers.entrySet()) {
            if (it.getValue().equals(log.toString()) && Log.isNamed(it.getKey(), given)) {
                throw new Fault.Unavailable("there is no log at " + log + ", and the mirror knows the manager " + it.getKey() + ", whose log was there:"
                    + " make it anew by `garterfossil.Command failover`; or give this manager a name of its own (name), if it is another one");
            }
        }
    }

    private Fault.Unavailable older(long next, long before) {
        return new Fault.Unavailable("the log " + log + " is older than its mirror, in session " + next + " and not after " + before
            + ": put the right one back, or make it of the mirror (garterfossil.Command failover)");
    }

    /**
     * Of a transaction that it holds and the log doesn't: the row left the log as that left it,
     * unless a resource still lists a branch.
     */
    private void seeOver(String gtrid, List<String> xids, Lister lister) throws Fault.Unavailable {
        boolean isOver = true;
        for (String text : xids) {
            BranchXid xid = BranchXid.parse(text);
            List<BranchXid> listed = lister.listedAt(xid.rm());
            isOver &= listed != null;
            if (listed != null && listed.contains(xid)) {
                throw new Fault.Unavailable("the log " + log + " is older than its mirror, which has decided to commit " + gtrid + ", of which the log"
                    + " knows nothing: put the right one back, or make it of the mirror (garterfossil.Command failover)");
            }
        }
        (isOver ? surelyOver : unknownToLog).add(gtrid);
    }

    /**
     * A session begins: it has what the log has decided. Throws if another machine has taken over
     * since it was looked at.
     */
    void begin(long next) throws Fault {
        if (next != kept.incarnation + 1) {
            throw new Fault.Gone("another program has had the log since it was looked at, in session " + (next - 1));
        }
        incarnation = next;
        try {
            adding.once(at -> {
                if (!adding.isReplicated(at)) {
                    Manager.LOG.log(Level.WARNING, "the mirror has no synchronous standby, and is no cluster: it is lost with its own machine");
                }
                long before = adding.incarnation(at);
                if (before >= next) {
                    throw older(next, before);
                }
                adding.note(at, log.toString(), String.join(" ", resources), next, before < 0);
                Set<String> held = adding.decisions(at).keySet();
                if (!surelyOver.isEmpty()) {
                    adding.remove(at, List.copyOf(surelyOver));
                }
                Map<String, List<BranchXid>> missing = new LinkedHashMap<>(kept.decisions);
                missing.keySet().removeAll(held);
                return missing.isEmpty() || adding.insert(at, missing, next);
            });
        } catch (Fault.Lost error) {
            throw away(error);
        }
        kept.decisions.forEach(this::owe);
    }

    /**
     * Whether it has decided to commit a transaction of which the log knows nothing, and which may
     * not be over.
     */
    boolean isUnknownToLog(String gtrid) {
        return unknownToLog.contains(gtrid);
    }

    // ** its decisions

    /**
     * The transaction is decided to commit: those of several threads that come together are by one
     * commit of its database. If it throws, nobody knows whether the mirror has it, and the session
     * is to end. It stands all the same, as the log has it.
     */
    void add(String gtrid, List<BranchXid> xids) throws Fault.Lost {
        Decision mine = new Decision(gtrid, xids, new CompletableFuture<>());
        asked.add(mine);
        synchronized (asked) {
            if (!mine.told.isDone()) {
                List<Decision> some = new ArrayList<>();
                for (Decision one = asked.poll(); one != null; one = asked.poll()) {
                    some.add(one);
                }
                addAll(some);
            }
        }
        // Not even told, if the thread that had taken it met an error of the Java machine.
        String error = mine.told.getNow(FAILED);
        if (!error.isEmpty()) {
            throw new Fault.Lost(error, null);
        }
    }

    private void addAll(List<Decision> some) {
        String error = FAILED;
        try {
            Map<String, List<BranchXid>> all = new LinkedHashMap<>();
            some.forEach(one -> all.put(one.gtrid, one.xids));
            error = adding.once(at -> adding.insert(at, all, incarnation)) ? ""
                : "the mirror is in a later session of this manager: another machine has taken over";
        } catch (Fault raised) {
            error = "decisions can't be told to the mirror: " + raised.getMessage();
        } finally {
            for (Decision one : some) {
                one.told.complete(error);
            }
        }
    }

    /**
     * Of a decided transaction these branches are yet to be ended. Its row may leave once none is.
     */
    synchronized void owe(String gtrid, List<BranchXid> xids) {
        if (xids.isEmpty()) {
            left.add(gtrid);
        } else {
            owed.put(gtrid, new HashSet<>(xids));
        }
    }

    /** A branch is over. */
    synchronized void ended(BranchXid xid) {
        Set<BranchXid> others = owed.getOrDefault(xid.transaction(), new HashSet<>());
        if (others.remove(xid) && others.isEmpty()) {
            left.add(xid.transaction());
            owed.remove(xid.transaction());
        }
    }

    /** Has all rows leave that may. One that stays costs a failover some calls, and no more. */
    void finish() {
        List<String> gtrids;
        synchronized (this) {
            gtrids = List.copyOf(left);
            left.clear();
        }
        if (gtrids.isEmpty()) {
            return;
        }
        try {
            removing.once(at -> {
                removing.remove(at, gtrids);
                return null;
            });
        } catch (Fault error) {
            Manager.LOG.log(Level.WARNING, () -> "rows stay in the mirror: " + error.getMessage());
        }
    }

    void close() {
        adding.close();
        removing.close();
    }

    // ** a machine that is lost

    /**
     * Makes the log anew that isn't here, and of which the mirror knows the manager. What it says
     * of that.
     */
    static String failOver(DataSource source, Path log, Coordinator.Starter starter, String program, String given, Duration patience) throws Fault {
        Path here = log.toAbsolutePath();
        MirrorTables any = new MirrorTables(source, "", patience);
        List<String> names = new ArrayList<>();
        try {
            any.make();
            Map<String, String> known = any.once(any::managers);
            known.values().removeIf(path -> !Path.of(path).getFileName().equals(here.getFileName()));
            known.keySet().stream().filter(name -> Log.isNamed(name, given)).forEach(names::add);
        } catch (Fault.Lost error) {
            throw new Fault.Unavailable("the mirror can't be read", error);
        } finally {
            any.close();
        }
        if (names.isEmpty() || here.toFile().exists()) {
            throw new Fault.Unavailable("there is no log to be made at " + log + ": the mirror knows none of such a name that isn't here");
        }
        if (names.size() > 1) {
            throw new Fault.Unavailable("the mirror knows several managers whose log is " + here.getFileName() + ", as " + names.get(0) + " and "
                + names.get(1) + ": give --name");
        }
        return made(new MirrorTables(source, names.get(0), patience), here, starter, program);
    }

    private static String made(MirrorTables tables, Path log, Coordinator.Starter starter, String program) throws Fault {
        try {
            List<String> lines = tables.takeOver();
            String text = String.join("\n", lines) + "\n";
            Log.printed(starter, List.of(program, "log", "--make", log.toString()), text, TO_MAKE, new StringBuilder());
            long count = lines.stream().filter(line -> line.contains(":")).count();
            return "log " + log + ", of the manager " + tables.manager + ": made, with " + count + " decisions to commit";
        } catch (Fault.Gone | Fault.Lost error) {
            throw new Fault.Unavailable("the log " + log + " can't be made", error);
        } finally {
            tables.close();
        }
    }
}
