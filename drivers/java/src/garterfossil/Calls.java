package garterfossil;

import java.util.ArrayList;
import java.util.Arrays;
import java.util.LinkedHashSet;
import java.util.List;
import java.util.Set;
import javax.transaction.xa.XAException;
import javax.transaction.xa.XAResource;
import javax.transaction.xa.Xid;

/**
 * Makes XA's calls: how each was answered, by its code (C193, chapter 5). What an answer means is
 * the coordinator's to know. What isn't among the answers that docs/MOVES.md has of a call is none:
 * the connection is lost, and nobody knows what was done.
 */
final class Calls {
    /** A call. */
    interface Call {
        int made() throws XAException;
    }

    private Calls() {
    }

    /**
     * xa_end, xa_prepare, or xa_commit in one phase, which may also say that the branch was rolled
     * back.
     */
    static int answer(String name, Call call) throws Fault.Lost {
        try {
            return call.made();
        } catch (XAException error) {
            // Of an xa_commit in one phase XAER_RMERR says so too.
            if (Code.isRollback(error.errorCode) || name.equals("xa_commit") && error.errorCode == XAException.XAER_RMERR) {
                return error.errorCode;
            }
            throw unanswered(name, error);
        } catch (RuntimeException error) {
            throw new Fault.Lost(name, error);
        }
    }

    /** The call that ends a branch, by the coordinator's word for it. */
    static int end(String call, XAResource resource, Xid xid) throws Fault.Lost {
        try {
            switch (call) {
                case "xa_commit" -> resource.commit(xid, false);
                case "xa_rollback" -> resource.rollback(xid);
                case "xa_forget" -> resource.forget(xid);
                default -> throw new IllegalArgumentException("the coordinator told " + call);
            }
            return Code.OK;
        } catch (XAException error) {
            boolean isNone = error.errorCode == Code.NOTA && !call.equals("xa_forget");
            // Some say so of one whose old connection is still there.
            if (isNone && listed(resource).contains(BranchXid.copyOf(xid))) {
                throw new Fault.Lost("XAER_NOTA of a branch that is listed", error);
            }
            return answered(call, error);
        } catch (RuntimeException error) {
            throw new Fault.Lost(call, error);
        }
    }

    private static int answered(String call, XAException error) throws Fault.Lost {
        int code = error.errorCode;
        boolean isEnd = !call.equals("xa_forget") && (Code.isRollback(code) || Code.isHeuristic(code));
        boolean isCommit = call.equals("xa_commit") && (code == Code.RETRY || code == XAException.XAER_RMERR);
        if (isEnd || isCommit || code == Code.NOTA) {
            return code;
        }
        // Those that keep nothing of what ended by itself say that they can't, in one way or
        // another.
        if (call.equals("xa_forget") && code != XAException.XAER_RMFAIL) {
            return XAException.XAER_RMERR;
        }
        throw unanswered(call, error);
    }

    /**
     * The branches of managers, of whatever names, that a resource lists: in several parts, if it
     * does so.
     */
    static List<BranchXid> listed(XAResource resource) throws Fault.Lost {
        Set<BranchXid> found = new LinkedHashSet<>();
        try {
            Xid[] part = resource.recover(XAResource.TMSTARTRSCAN);
            // Some list all of them again without a flag.
            while (part != null && Arrays.stream(part).map(BranchXid::copyOf).filter(found::add).count() > 0) {
                part = resource.recover(XAResource.TMNOFLAGS);
            }
            resource.recover(XAResource.TMENDRSCAN);
        } catch (XAException error) {
            throw unanswered("xa_recover", error);
        } catch (RuntimeException error) {
            throw new Fault.Lost("xa_recover", error);
        }
        found.removeIf(it -> !it.isOfAManager());
        return new ArrayList<>(found);
    }

    /** A code that is no answer. */
    static Fault.Lost unanswered(String call, XAException error) {
        Throwable cause = error.getCause() == null ? error : error.getCause();
        // (Some have no code where they don't know the error.)
        return new Fault.Lost(call + " has no answer" + (error.errorCode == 0 ? "" : ", " + Code.name(error.errorCode)), cause);
    }
}
