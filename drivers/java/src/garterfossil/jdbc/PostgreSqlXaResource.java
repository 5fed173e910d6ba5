package garterfossil.jdbc;

import garterfossil.Resource;
import java.sql.Connection;
import java.sql.SQLException;
import java.util.Optional;
import javax.transaction.xa.XAException;
import javax.transaction.xa.XAResource;
import javax.transaction.xa.Xid;

/**
 * An XAResource of PostgreSQL, by its statements. That of PostgreSQL's driver names prepared
 * branches in its own way, so that no other program over the same log would find them. xa_end is
 * kept here: PostgreSQL has none.
 */
final class PostgreSqlXaResource extends JdbcXaResource {
    private static final String NO_SUCH_BRANCH = "42704";

    private interface Work {
        void it() throws SQLException;
    }

    // The branch that is active or idle on the connection, or null.
    private volatile Xid current;

    PostgreSqlXaResource(Resource owner, Dialect dialect, XAResource inner, Connection connection) {
        super(owner, dialect, inner, connection);
    }

    /** Whether the connection has a branch: then its transaction isn't the program's to end. */
    boolean hasBranch() {
        return current != null;
    }

    @Override
    public void start(Xid xid, int flags) throws XAException {
        if (flags != TMNOFLAGS) {
            throw new XAException(XAException.XAER_INVAL);
        }
        requireNone();
        make(() -> connection.setAutoCommit(false));
        current = xid;
    }

    @Override
    public void end(Xid xid, int flags) throws XAException {
        if (!xid.equals(current)) {
            throw new XAException(XAException.XAER_NOTA);
        }
    }

    private void requireNone() throws XAException {
        if (current != null) {
            throw new XAException(XAException.XAER_PROTO);
        }
    }

    @Override
    public int prepare(Xid xid) throws XAException {
        does(() -> endBy(xid, () -> Dialect.execute(connection, "PREPARE TRANSACTION '" + PreparedNames.of(xid) + "'")));
        return XA_OK;
    }

    @Override
    public void commit(Xid xid, boolean isOnePhase) throws XAException {
        does(() -> {
            if (isOnePhase) {
                endBy(xid, connection::commit);
            } else {
                endPrepared("COMMIT", xid);
            }
        });
    }

    /**
     * Ends the branch of the connection. Where PostgreSQL says that it doesn't, it has rolled back.
     */
    private void endBy(Xid xid, Work end) throws XAException {
        end(xid, TMSUCCESS);
        seeWhole(xid);
        try {
            end.it();
        } catch (SQLException error) {
            int vote = vote(error.getSQLState() == null ? "" : error.getSQLState());
            if (vote != XAException.XAER_RMFAIL) {
                undo();
            }
            throw failed(vote, error);
        }
        makeOrdinary();
    }

    /** Why it rolled back, by the state of the error. Without one of the server's nobody knows. */
    private static int vote(String state) {
        return switch (state) {
            case "40P01" -> XAException.XA_RBDEADLOCK;
            case "40001" -> XAException.XA_RBTRANSIENT;
            case "55P03", "57014" -> XAException.XA_RBTIMEOUT;
            default -> state.startsWith("23") ? XAException.XA_RBINTEGRITY
                : state.matches("(0[^8]|2|3|4|5[345]|F0|HV|P0).*") ? XAException.XA_RBOTHER : XAException.XAER_RMFAIL;
        };
    }

    @Override
    public void rollback(Xid xid) throws XAException {
        does(() -> {
            if (xid.equals(current)) {
                undo();
            } else {
                endPrepared("ROLLBACK", xid);
            }
        });
    }

    private void undo() throws XAException {
        make(connection::rollback);
        makeOrdinary();
    }

    /** The branch is over, also where this fails: then the connection is lost. */
    private void makeOrdinary() throws XAException {
        current = null;
        make(() -> connection.setAutoCommit(true));
    }

    /** Ends a prepared branch, by the name that it has. */
    private void endPrepared(String verb, Xid xid) throws XAException {
        requireNone();
        try {
            try {
                Dialect.execute(connection, verb + " PREPARED '" + PreparedNames.of(xid) + "'");
            } catch (SQLException error) {
                if (!NO_SUCH_BRANCH.equals(error.getSQLState())) {
                    throw error;
                }
                Dialect.execute(connection, verb + " PREPARED '" + PreparedNames.older(xid) + "'");
            }
        } catch (SQLException error) {
            throw failed(NO_SUCH_BRANCH.equals(error.getSQLState()) ? XAException.XAER_NOTA : XAException.XAER_RMFAIL, error);
        }
    }

    /** PostgreSQL keeps nothing of a branch that is over. */
    @Override
    public void forget(Xid xid) throws XAException {
        throw new XAException(XAException.XAER_NOTA);
    }

    /** Those of this database whose names are identifiers. */
    @Override
    public Xid[] recover(int flags) throws XAException {
        return (flags & TMSTARTRSCAN) == 0 ? new Xid[0] : bounded(() -> {
            try {
                return Dialect.rows(connection, "SELECT gid FROM pg_prepared_xacts WHERE database = current_database()").stream()
                    .map(PreparedNames::parse).flatMap(Optional::stream).toArray(Xid[]::new);
            } catch (SQLException error) {
                throw failed(XAException.XAER_RMFAIL, error);
            }
        });
    }

    private void make(Work work) throws XAException {
        try {
            work.it();
        } catch (SQLException error) {
            throw failed(XAException.XAER_RMFAIL, error);
        }
    }
}
