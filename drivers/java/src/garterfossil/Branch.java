package garterfossil;

import java.time.Duration;
import java.util.function.Supplier;
import javax.transaction.xa.XAException;
import javax.transaction.xa.XAResource;

/**
 * The part of a transaction at one resource, over one connection. Its transaction has it make
 * calls, one after the other.
 */
final class Branch {
    private static final Duration A_SECOND = Duration.ofSeconds(1), SHORTLY = Duration.ofSeconds(3);
    private static final String NO_MORE_WORK = "the transaction is over for this connection: get a new one";

    final BranchXid xid;
    final ResourceManager rm;
    final Gate gate = new Gate();
    private final ResourceManager.Lease lease;
    final XAResource resource;
    // How long its transaction may still go on.
    private final Supplier<Duration> left;
    private boolean isBegun, isFailed, isEnded, isPrepareMade, isOver, isInHaste;
    private volatile boolean isLost;
    // How the last call was answered: a code, or by nothing, and what went wrong.
    private int code;
    private Fault fault;

    Branch(BranchXid xid, ResourceManager rm, ResourceManager.Lease lease, XAResource resource, Supplier<Duration> left) {
        this.xid = xid;
        this.rm = rm;
        this.lease = lease;
        this.resource = resource;
        this.left = left;
    }

    Link link() {
        return lease == null ? null : lease.link;
    }

    boolean isLost() {
        return isLost;
    }

    /** Whether xa_start was answered well: then the coordinator is to know of it. */
    boolean isBegun() {
        return isBegun;
    }

    /** Whether the program can work past the gate, until the connection is closed. */
    private boolean isLetOut() {
        return link() != null && link().isLetOut();
    }

    /**
     * The time of its transaction is over: its rollback may take some seconds. Then its connection
     * is given up, which ends it too.
     */
    void makeHaste() {
        isInHaste = true;
    }

    /**
     * How long the calls that follow may take: before the decision no longer than the transaction,
     * but a second at least.
     */
    private void bound(boolean isBeforeDecision) {
        if (lease == null) {
            return;
        }
        Duration mine = left.get().compareTo(A_SECOND) < 0 ? A_SECOND : left.get();
        Duration wanted = isInHaste ? SHORTLY : isBeforeDecision ? mine : rm.resource.patience();
        lease.link.bound(wanted.compareTo(rm.resource.patience()) < 0 ? wanted : rm.resource.patience());
    }

    // ** work

    /** xa_start. */
    void start() throws Fault.Lost {
        bound(true);
        try {
            resource.start(xid, XAResource.TMNOFLAGS);
            isBegun = true;
        } catch (XAException error) {
            throw lost(Calls.unanswered("xa_start", error));
        } catch (RuntimeException error) {
            throw lost(new Fault.Lost("xa_start", error));
        }
    }

    /** The work failed: it is ended by TMFAIL, if the branch is rolled back. */
    void fail() {
        isFailed = true;
    }

    // ** the calls that are told

    /** Makes a call. */
    void make(String verb) {
        try {
            if (isLost) {
                throw new Fault.Lost("the connection to " + rm + " was lost", null);
            }
            code = made(verb);
            // What is put off may be on the connection still.
            isOver = code != Code.RETRY && !(verb.equals("prepare") && code == Code.OK);
            boolean isNo = Code.isRollback(code) || code == XAException.XAER_RMERR;
            fault = isNo ? new Fault.RolledBack(rm + " voted " + Code.name(code), null) : null;
        } catch (Fault.Lost error) {
            fault = lost(error);
        }
    }

    private int made(String verb) throws Fault.Lost {
        return switch (verb) {
            case "prepare" -> prepare();
            case "commit-at-once" -> commitAtOnce();
            case "undo" -> undo();
            default -> {
                bound(false);
                yield Calls.end("xa_" + verb, resource, xid);
            }
        };
    }

    /** How the call was answered, as the coordinator is told. */
    String answer() {
        return isLost ? "lost" : Integer.toString(code);
    }

    int code() {
        return code;
    }

    /** Why it can't be committed, or what went wrong in the last call; null if nothing did. */
    Fault fault() {
        return fault;
    }

    private int prepare() throws Fault.Lost {
        bound(true);
        shut(Manager.WORK_PATIENCE);
        int vote;
        if (resource instanceof PreparesAtEnd both) {
            isEnded = isPrepareMade = true;
            vote = Calls.answer("xa_prepare", () -> both.endAndPrepare(xid));
        } else {
            vote = end(XAResource.TMSUCCESS);
            if (vote != Code.OK) {
                return rolledBack(vote);
            }
            isPrepareMade = true;
            vote = Calls.answer("xa_prepare", () -> resource.prepare(xid));
        }
        if (vote != Code.OK && vote != Code.RDONLY && !Code.isRollback(vote)) {
            throw new Fault.Lost("xa_prepare answered " + Code.name(vote), null);
        }
        return vote;
    }

    private int commitAtOnce() throws Fault.Lost {
        bound(true);
        shut(Manager.WORK_PATIENCE);
        int vote = end(XAResource.TMSUCCESS);
        bound(false);
        return vote != Code.OK ? rolledBack(vote) : Calls.answer("xa_commit", () -> {
            resource.commit(xid, true);
            return Code.OK;
        });
    }

    /**
     * The resource has said by xa_end that the branch can only be rolled back: that is its vote.
     */
    private int rolledBack(int vote) throws Fault.Lost {
        Calls.end("xa_rollback", resource, xid);
        return vote;
    }

    /** Rolls back what isn't prepared. */
    private int undo() throws Fault.Lost {
        bound(isInHaste);
        // Behind a rollback a connection is an ordinary one, and the program has it still.
        if (isLetOut() || isInHaste && lease == null) {
            throw new Fault.Lost("it was unwrapped, or is another pool's, and so is closed", null);
        }
        shut(0);
        if (!isEnded) {
            end(isFailed ? XAResource.TMFAIL : XAResource.TMSUCCESS);
        }
        int answer = Calls.end("xa_rollback", resource, xid);
        if (Code.isHeuristic(answer) && answer != Code.HEURRB) {
            throw new Fault.Lost("xa_rollback of what wasn't prepared answered " + Code.name(answer), null);
        }
        return answer;
    }

    private void shut(long patience) throws Fault.Lost {
        if (!gate.shut(NO_MORE_WORK, patience)) {
            throw new Fault.Lost("work on the connection doesn't end", null);
        }
    }

    /** xa_end: 0, or why the branch can only be rolled back. */
    private int end(int flag) throws Fault.Lost {
        isEnded = true;
        return Calls.answer("xa_end", () -> {
            resource.end(xid, flag);
            return Code.OK;
        });
    }

    // ** its end

    /** The connection goes back to the pool, if nothing of the branch is on it. */
    void release() {
        gate.shut(NO_MORE_WORK, Manager.WORK_PATIENCE);
        if (lease == null || isLost) {
            return;
        }
        if (isOver) {
            lease.giveBack();
        } else {
            lease.lose();
        }
    }

    /** The connection was lost in a call. */
    private Fault.Lost lost(Fault.Lost error) {
        abandon("the connection to " + rm + " is lost: " + error.getMessage());
        return error;
    }

    /**
     * The connection is given up, and closed; work that can't be prepared is undone as far as that
     * can be done here.
     */
    void abandon(String why) {
        if (isLost) {
            return;
        }
        boolean isQuiet = gate.shut(why, 0) && !isCut();
        isLost = true;
        // Behind a rollback a connection is an ordinary one again, and so must not be the program's
        // any more.
        if (isQuiet && isBegun && !isPrepareMade && !isOver && !isLetOut()) {
            undoHere();
        }
        if (lease != null) {
            lease.lose();
        }
    }

    /** Whether the connection, which another pool has, was ended. */
    private boolean isCut() {
        boolean isSo = lease == null && !isOver && resource instanceof OwnedXaResource owned && owned.cut();
        if (isSo) {
            rm.noteStray();
        }
        return isSo;
    }

    /** A resource in this process keeps an active branch although its connection is closed. */
    private void undoHere() {
        try {
            if (!isEnded) {
                resource.end(xid, XAResource.TMFAIL);
            }
        } catch (XAException | RuntimeException error) {
            // What follows says whether it is over.
        }
        try {
            resource.rollback(xid);
        } catch (XAException | RuntimeException error) {
            Manager.LOG.log(System.Logger.Level.DEBUG, () -> xid + " ends with its connection: " + error);
        }
    }
}
