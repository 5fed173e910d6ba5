package garterfossil.jdbc;

import garterfossil.BranchXid;
import garterfossil.Manager;
import garterfossil.PreparesAtEnd;
import garterfossil.Resource;
import java.lang.System.Logger.Level;
import java.sql.Connection;
import java.sql.SQLException;
import java.sql.SQLWarning;
import java.sql.Statement;
import java.util.Arrays;
import java.util.HexFormat;
import javax.transaction.xa.XAException;
import javax.transaction.xa.XAResource;
import javax.transaction.xa.Xid;

/**
 * An XAResource of MariaDB, at which XA END and XA PREPARE are one statement: the second isn't made
 * where the first fails.
 */
final class MariaDbXaResource extends JdbcXaResource implements PreparesAtEnd {
    /** What it warns of as it rolls a branch back that wrote in a table without transactions. */
    private static final int KEPT = 1196;

    MariaDbXaResource(Resource owner, Dialect dialect, XAResource inner, Connection connection) {
        super(owner, dialect, inner, connection);
    }

    @Override
    public int endAndPrepare(Xid xid) throws XAException {
        return bounded(() -> {
            String text = text(xid);
            try (Statement statement = connection.createStatement()) {
                statement.execute("BEGIN NOT ATOMIC XA END " + text + "; XA PREPARE " + text + "; END");
                return XA_OK;
            } catch (SQLException error) {
                throw failed(rolledBack(xid, error), error);
            }
        });
    }

    /**
     * MariaDB keeps nothing of a prepared branch that only read, once the connection that prepared
     * it is gone: it lists it until somebody ends it, and answers by XA_RBROLLBACK then. There was
     * nothing to roll back, so it is committed as well.
     */
    @Override
    public void commit(Xid xid, boolean isOnePhase) throws XAException {
        try {
            super.commit(xid, isOnePhase);
        } catch (XAException error) {
            if (isOnePhase || error.errorCode != XAException.XA_RBROLLBACK || isListed(xid)) {
                throw error;
            }
        }
    }

    /**
     * Warns if a table has kept what the branch wrote: it may have been made since the tables were
     * looked at.
     */
    @Override
    public void rollback(Xid xid) throws XAException {
        super.rollback(xid);
        does(() -> {
            try {
                for (SQLWarning it = connection.getWarnings(); it != null; it = it.getNextWarning()) {
                    if (it.getErrorCode() == KEPT) {
                        Manager.LOG.log(Level.WARNING, BranchXid.copyOf(xid)
                            + " is rolled back, but wrote in a table of MariaDB that keeps it (MyISAM, Aria, MEMORY ..)");
                    }
                }
            } catch (SQLException error) {
                // The branch is over. A connection that is lost is found by whoever uses it next.
            }
        });
    }

    private boolean isListed(Xid xid) throws XAException {
        return Arrays.stream(recover(TMSTARTRSCAN | TMENDRSCAN)).anyMatch(it -> BranchXid.copyOf(it).equals(BranchXid.copyOf(xid)));
    }

    /** Rolls back what MariaDB has given up: the vote. What failed is known by the code alone. */
    private int rolledBack(Xid xid, SQLException error) throws XAException {
        int vote = switch (error.getErrorCode()) {
            case 1402 -> XAException.XA_RBROLLBACK;
            case 1613 -> XAException.XA_RBTIMEOUT;
            // XAER_RMFAIL, as it answers to XA END after a deadlock, and XA_RBDEADLOCK.
            case 1399, 1614 -> XAException.XA_RBDEADLOCK;
            default -> XAException.XAER_RMFAIL;
        };
        if (vote != XAException.XAER_RMFAIL) {
            try {
                rollback(xid);
            } catch (XAException second) {
                // An XA PREPARE that fails has rolled back.
                boolean isGone = second.errorCode == XAException.XAER_NOTA && vote == XAException.XA_RBROLLBACK;
                if (!isGone && (second.errorCode < XAException.XA_RBBASE || second.errorCode > XAException.XA_RBEND)) {
                    throw failed(XAException.XAER_RMFAIL, error);
                }
            }
        }
        return vote;
    }

    static String text(Xid xid) {
        HexFormat hex = HexFormat.of();
        return "X'" + hex.formatHex(xid.getGlobalTransactionId()) + "',X'" + hex.formatHex(xid.getBranchQualifier()) + "'," + xid.getFormatId();
    }
}
