package garterfossil;

import java.lang.System.Logger.Level;
import java.util.ArrayList;
import java.util.HashSet;
import java.util.List;
import java.util.Map;
import java.util.Set;
import java.util.TreeSet;
import java.util.stream.Collectors;
import java.util.concurrent.CountDownLatch;
import java.util.concurrent.TimeUnit;

/**
 * Recovers a resource as the coordinator says, in a thread of its own: at the start of a session,
 * and whenever a branch there is owed. So no other thread ever waits for a resource that is away.
 */
final class Recovery {
    /** How many identifiers a page lists. */
    private static final int PAGE = 32;
    private static final long PAUSE = 300;
    private static final int MOST_NOTED = 100;

    final ResourceManager rm;
    private final Session session;
    private final Coordinator coordinator;
    private final Thread thread;
    private final CountDownLatch first = new CountDownLatch(1);
    // How often it was due, and how often of these that was seen to: a branch may be left to it
    // while it goes on.
    private volatile long due = 1, seenTo;
    // How many branches are owed there, as far as is known.
    private volatile int owed;
    private volatile boolean isOver;
    private Link link;
    // What the resource listed, and how much of that was told.
    private List<BranchXid> listed = List.of();
    private int told;
    // The call that was made last, and how it was answered.
    private Made last = new Made("", null, 0);
    // What was ended in this session, and how many branches of earlier sessions weren't there.
    private final Recent<BranchXid> ended = new Recent<>(10_000);
    private int gone;
    private final Set<String> noted = new HashSet<>();
    private boolean areOthersNoted;

    private record Made(String call, BranchXid xid, int code) {
    }

    Recovery(Session session, ResourceManager rm) {
        this.session = session;
        this.rm = rm;
        coordinator = session.coordinator;
        thread = Aside.daemons("recovery of " + rm).newThread(this::keep);
    }

    void start() {
        thread.start();
    }

    /** Waits until it has worked once. */
    void awaitFirst(long until) {
        try {
            if (!first.await(Math.max(1, until - System.nanoTime()), TimeUnit.NANOSECONDS)) {
                Manager.LOG.log(Level.WARNING, () -> rm + " isn't recovered yet: it is silent, and the others go on");
            }
        } catch (InterruptedException error) {
            Thread.currentThread().interrupt();
        }
    }

    synchronized void stop() {
        isOver = true;
        notifyAll();
    }

    /** A branch is owed there. */
    synchronized void owe() {
        owed++;
        due++;
        notifyAll();
    }

    boolean isRecovered() {
        return due == seenTo;
    }

    int owed() {
        return owed;
    }

    /** How many branches and recoveries wait for the resource. */
    int owing() {
        return isRecovered() ? 0 : Math.max(1, owed);
    }

    // ** the thread

    private void keep() {
        try {
            while (!isOver && !coordinator.isGone()) {
                if (!isRecovered()) {
                    recover();
                }
                first.countDown();
                if (isRecovered()) {
                    disconnect();
                }
                pause(isRecovered() ? 0 : PAUSE);
            }
            disconnect();
        } catch (RuntimeException | Error error) {
            coordinator.failed(error);
        } finally {
            first.countDown();
        }
    }

    /** Waits so many milliseconds, or with 0 until something is due. */
    private synchronized void pause(long millis) {
        long until = System.nanoTime() + millis * 1_000_000;
        try {
            while (!isOver && (millis > 0 ? System.nanoTime() < until : isRecovered())) {
                wait(millis > 0 ? Math.max(1, (until - System.nanoTime()) / 1_000_000) : 0);
            }
        } catch (InterruptedException error) {
            isOver = true;
        }
    }

    private void putOff(String why) {
        // The same is said once, until all is well again.
        boolean isNew = noted.size() < MOST_NOTED && noted.add(why);
        Manager.LOG.log(isNew ? Level.WARNING : Level.DEBUG, () -> rm + " is recovered later: " + why);
        disconnect();
    }

    /** The coordinator may still wait for an answer. */
    private void breakOff() {
        try {
            coordinator.ask("end " + rm.number + " lost");
        } catch (Fault.Gone error) {
            isOver = true;
        }
    }

    /**
     * A connection, once those that were lost are gone: what they had under way could happen after
     * a call here.
     */
    private void connect() throws Fault.Lost {
        if (link != null && !rm.hasStrays()) {
            return;
        }
        disconnect();
        link = rm.connect(rm.resource.patience());
        link.bound(rm.resource.patience());
    }

    private void disconnect() {
        Link old = link;
        link = null;
        if (old != null) {
            rm.discard(old);
        }
    }

    // ** a recovery

    /**
     * Recovers it. What is owed waits for this thread alone: so whatever goes wrong, it goes on,
     * over another connection.
     */
    private void recover() {
        long seen = due;
        int before = owed;
        try {
            connect();
            int left = conduct();
            if (left == 0) {
                seeReturned(seen);
                noted.clear();
                seenTo = seen;
            }
            synchronized (this) {
                owed += left < 0 ? 0 : left - before;
            }
        } catch (Fault.Gone error) {
            isOver = true;
        } catch (Fault error) {
            putOff(error.getMessage());
        } catch (RuntimeException | Error error) {
            putOff(error.toString());
            breakOff();
        }
    }

    /**
     * Does what the coordinator says: how many branches are owed there in the end; -1 if it was
     * broken off.
     */
    private int conduct() throws Fault {
        gone = 0;
        String[] words = asked("recover");
        while (true) {
            switch (words[0]) {
                case "recover" -> words = page(words.length == 3);
                case "xa_commit", "xa_rollback", "xa_forget" -> words = asked("end", make(words[0], named(words)));
                case "recovered" -> {
                    noteGone();
                    return left(words);
                }
                case "later" -> {
                    return -1;
                }
                case "strange" -> session.strange(rm, named(words).toString());
                default -> throw refused(words);
            }
        }
    }

    private Fault.Gone refused(String[] words) {
        return coordinator.failed(new Fault.Refused("the coordinator replied: " + String.join(" ", words)));
    }

    private BranchXid named(String[] words) throws Fault.Gone {
        try {
            BranchXid found = BranchXid.parse(words[1]);
            if (found.isOfAManager()) {
                return found;
            }
        } catch (IllegalArgumentException | IndexOutOfBoundsException error) {
            // It names none.
        }
        throw refused(words);
    }

    /** How many branches can't be ended yet. */
    private int left(String[] words) throws Fault.Gone {
        if (words.length > 1 && !(words.length == 3 && words[2].matches("[0-9]{1,9}"))) {
            throw refused(words);
        }
        return words.length == 1 ? 0 : Integer.parseInt(words[2]);
    }

    private String[] asked(String move, String... words) throws Fault.Gone {
        return coordinator.ask((move + " " + rm.number + " " + String.join(" ", words)).trim()).split(" ", -1);
    }

    /** Tells a page of what the resource lists. It is asked once for all of it. */
    private String[] page(boolean isFirst) throws Fault.Gone {
        if (isFirst) {
            listed = null;
            told = 0;
            try {
                listed = listed();
                session.seeKnown(rm, listed);
            } catch (Fault.Lost error) {
                putOff(error.getMessage());
                return asked("end", "lost");
            }
        }
        List<BranchXid> page = listed.subList(told, Math.min(listed.size(), told + PAGE));
        told += page.size();
        return asked("page", page.stream().map(BranchXid::toString).toArray(String[]::new));
    }

    /** Makes a call: how it was answered. */
    private String make(String asked, BranchXid of) {
        try {
            connect();
            // What was told before its session ended the next session may have listed already. A
            // connection that was made before is ended by that one first.
            if (isOver) {
                return "lost";
            }
            int answer = Calls.end(asked, link.xaResource(), of);
            note(asked, of, answer);
            return Integer.toString(answer);
        } catch (Fault.Lost error) {
            putOff(error.getMessage());
            return "lost";
        }
    }

    /** What operators are told of an answer. */
    private void note(String asked, BranchXid of, int answer) {
        // Of what was decided and is over the row is mostly still there.
        Manager.LOG.log(answer == Code.NOTA ? Level.DEBUG : Level.INFO,
            () -> rm + ": " + asked + " of " + of + ", which was in doubt, is answered " + Code.name(answer));
        // One that isn't there any more was ended by somebody else, if the coordinator has it
        // forgotten.
        boolean wasGone = asked.equals("xa_forget") && of.equals(last.xid) && last.code == Code.NOTA;
        if (wasGone || Code.isAlone(asked, answer)) {
            session.counts.heuristicEnd(of, rm, wasGone ? last.call : asked, wasGone ? last.code : answer);
        }
        if (asked.equals("xa_commit") && answer == Code.NOTA && of.incarnation() != session.incarnation && !ended.contains(of)) {
            gone++;
        }
        if (asked.equals("xa_rollback")) {
            session.undone.add(of);
        }
        if (answer != Code.RETRY) {
            session.noteEnded(of);
        }
        ended.add(of);
        last = new Made(asked, of, answer);
    }

    private void noteGone() {
        if (gone > 0) {
            Manager.LOG.log(Level.WARNING, () -> rm + ": of " + gone + " branches that were decided to commit nothing is there"
                + " any more. They were committed before, unless this isn't the database that had them, or somebody ended them by hand");
        }
    }

    /**
     * Sees that what it lists of this session's transactions belongs to one that goes on. They end
     * their branches by themselves.
     */
    private void seeReturned(long seen) throws Fault {
        List<BranchXid> over = new ArrayList<>(listed);
        over.removeIf(it -> it.incarnation() != session.incarnation || session.has(it.transaction()));
        if (!over.isEmpty()) {
            // They may have been over only since it was listed.
            over.retainAll(listed());
        }
        // What is owed came before its transaction was over.
        if (!over.isEmpty() && due == seen) {
            session.returned(rm, over);
        }
    }

    private List<BranchXid> listed() throws Fault.Lost {
        Map<Boolean, List<BranchXid>> found = Calls.listed(link.xaResource()).stream()
            .collect(Collectors.partitioningBy(it -> it.isOf(session.name, rm.number)));
        // What others have in doubt stays: those of managers that run, and of logs that are lost. A
        // new log says so, once.
        if (session.incarnation == 1 && !found.get(false).isEmpty() && !areOthersNoted) {
            areOthersNoted = true;
            Manager.LOG.log(Level.WARNING, () -> rm + " lists branches in doubt of other managers: "
                + found.get(false).stream().map(BranchXid::manager).collect(Collectors.toCollection(TreeSet::new))
                + ". Where one of them doesn't run any more, its log ends them");
        }
        return found.get(true);
    }
}
