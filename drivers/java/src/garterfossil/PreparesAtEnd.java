package garterfossil;

import javax.transaction.xa.XAException;
import javax.transaction.xa.Xid;

/** An XAResource that makes xa_end and xa_prepare by one request to its resource. */
public interface PreparesAtEnd {
    /**
     * xa_end with TMSUCCESS, and xa_prepare: the answer to that. After an XAException with a code
     * of XA_RB* the branch is rolled back; after any other one nobody knows.
     */
    int endAndPrepare(Xid xid) throws XAException;
}
