package garterfossil.jdbc;

import garterfossil.Fault;
import garterfossil.OwnedXaResource;
import garterfossil.Resource;
import java.sql.Connection;
import java.sql.SQLException;
import java.time.Duration;
import javax.transaction.xa.XAException;
import javax.transaction.xa.XAResource;
import javax.transaction.xa.Xid;

/**
 * A database driver's XAResource, which says whose it is, and doesn't prepare what the database has
 * given up: a driver may answer XA_OK to the prepare of a transaction in which a statement failed,
 * and the database has rolled it back by then.
 *
 * <p>Each call takes so long at most: a database that is silent would keep the transaction's other
 * databases waiting.
 */
class JdbcXaResource implements OwnedXaResource {
    /** A call of XA. */
    interface Call<T> {
        T made() throws XAException;
    }

    /** A call without a result. */
    interface Does {
        void made() throws XAException;
    }

    final Connection connection;
    private final Resource owner;
    private final Dialect dialect;
    private final XAResource inner;
    private volatile int longest;
    // What ends the connection, where it is another pool's.
    private volatile Runnable cutting;
    private boolean isUnbounded;

    JdbcXaResource(Resource owner, Dialect dialect, XAResource inner, Connection connection) {
        this.owner = owner;
        this.dialect = dialect;
        this.inner = inner;
        this.connection = connection;
        longest = owner == null ? 0 : (int) owner.patience().toMillis();
    }

    @Override
    public Resource owner() {
        return owner;
    }

    void cutBy(Runnable ends) {
        cutting = ends;
    }

    @Override
    public boolean cut() {
        Runnable ends = cutting;
        if (ends != null) {
            ends.run();
        }
        return ends != null;
    }

    /** How long each call may take from now on. */
    void bound(Duration duration) {
        longest = (int) Math.min(Integer.MAX_VALUE, Math.max(1, duration.toMillis()));
    }

    /** Has a call made, and the connection lost if there is no answer in time. */
    final <T> T bounded(Call<T> call) throws XAException {
        if (isUnbounded || longest == 0) {
            return call.made();
        }
        int before = setLongest(longest);
        try {
            return call.made();
        } finally {
            if (!isUnbounded) {
                setLongest(before);
            }
        }
    }

    final void does(Does does) throws XAException {
        bounded(() -> {
            does.made();
            return null;
        });
    }

    /** Sets how long an answer is waited for: what that was before. Some drivers know no bound. */
    private int setLongest(int millis) {
        try {
            int before = connection.getNetworkTimeout();
            connection.setNetworkTimeout(Runnable::run, millis);
            return before;
        } catch (SQLException | RuntimeException | AbstractMethodError error) {
            isUnbounded = true;
            return 0;
        }
    }

    /** Sees that the database hasn't given up the transaction of the connection. */
    final void seeWhole(Xid xid) throws XAException {
        boolean isGivenUp;
        try {
            isGivenUp = dialect.isGivenUp(connection);
        } catch (SQLException error) {
            throw failed(XAException.XAER_RMFAIL, error);
        }
        if (isGivenUp) {
            rollback(xid);
            throw failed(XAException.XA_RBROLLBACK, new SQLException("a statement had failed, and the database has given the transaction up"));
        }
    }

    static XAException failed(int code, SQLException cause) {
        return Fault.caused(new XAException(code), cause);
    }

    @Override
    public void start(Xid xid, int flags) throws XAException {
        does(() -> inner.start(xid, flags));
    }

    @Override
    public void end(Xid xid, int flags) throws XAException {
        does(() -> inner.end(xid, flags));
    }

    @Override
    public int prepare(Xid xid) throws XAException {
        return bounded(() -> {
            seeWhole(xid);
            return inner.prepare(xid);
        });
    }

    @Override
    public void commit(Xid xid, boolean isOnePhase) throws XAException {
        does(() -> {
            if (isOnePhase) {
                seeWhole(xid);
            }
            try {
                inner.commit(xid, isOnePhase);
            } catch (XAException error) {
                // By XA the branch is rolled back then. MariaDB says so of whatever went wrong.
                boolean isNoAnswer = error.errorCode == XAException.XAER_RMERR && dialect == Dialect.MARIADB;
                throw isNoAnswer ? failed(XAException.XAER_RMFAIL, new SQLException(error)) : error;
            }
        });
    }

    @Override
    public void rollback(Xid xid) throws XAException {
        does(() -> inner.rollback(xid));
    }

    @Override
    public void forget(Xid xid) throws XAException {
        does(() -> inner.forget(xid));
    }

    @Override
    public Xid[] recover(int flags) throws XAException {
        return bounded(() -> inner.recover(flags));
    }

    @Override
    public boolean isSameRM(XAResource other) throws XAException {
        return other instanceof JdbcXaResource it ? owner == it.owner : inner.isSameRM(other);
    }

    @Override
    public int getTransactionTimeout() throws XAException {
        return inner.getTransactionTimeout();
    }

    @Override
    public boolean setTransactionTimeout(int seconds) throws XAException {
        return inner.setTransactionTimeout(seconds);
    }
}
