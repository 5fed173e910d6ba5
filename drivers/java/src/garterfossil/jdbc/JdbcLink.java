package garterfossil.jdbc;

import garterfossil.Fault;
import garterfossil.Link;
import garterfossil.Manager;
import java.lang.System.Logger.Level;
import java.sql.Connection;
import java.sql.SQLException;
import java.sql.Statement;
import java.time.Duration;
import java.util.ArrayDeque;
import java.util.ArrayList;
import java.util.Deque;
import java.util.IdentityHashMap;
import java.util.List;
import java.util.Map;
import javax.sql.XAConnection;
import javax.transaction.xa.XAResource;

/** A connection to a database. */
final class JdbcLink implements Link {
    /** What takes a setting of the connection back. */
    interface Undo {
        void run() throws Exception;
    }

    private final JdbcResource owner;
    private final XAConnection xa;
    final Connection connection;
    private final Deque<Undo> undos = new ArrayDeque<>();
    // Those that are open on it, each with the handle that made it. Under the monitor of this.
    private final Map<Statement, Object> statements = new IdentityHashMap<>();
    private final JdbcXaResource resource;
    private final long number;
    private boolean isSuspect;
    private volatile boolean isLetOut;

    JdbcLink(XAConnection xa, JdbcResource owner) throws SQLException, Fault.Lost {
        this.owner = owner;
        this.xa = xa;
        try {
            connection = xa.getConnection();
            owner.see(connection);
            Dialect dialect = owner.dialect(connection);
            resource = dialect.xaResource(owner, xa.getXAResource(), connection);
            number = dialect.number(connection, owner.label());
        } catch (SQLException | Fault.Lost | RuntimeException error) {
            close();
            throw error;
        }
    }

    /** A setting was changed: this takes it back. */
    void undoLater(Undo undo) {
        undos.push(undo);
    }

    /** An error was met on it: it is asked before it is used again. */
    void suspect() {
        isSuspect = true;
    }

    /** The program gets what lies under it. */
    void letOut() {
        isLetOut = true;
    }

    @Override
    public boolean isLetOut() {
        return isLetOut;
    }

    @Override
    public void bound(Duration longest) {
        resource.bound(longest);
    }

    synchronized void opened(Statement statement, Object handle) {
        statements.put(statement, handle);
    }

    synchronized void closed(Statement statement) {
        statements.remove(statement);
    }

    /** Closes what a handle has opened, or with null what all have. */
    void closeStatements(Object handle) throws SQLException {
        List<Statement> open = new ArrayList<>();
        synchronized (this) {
            statements.forEach((statement, of) -> {
                if (handle == null || of == handle) {
                    open.add(statement);
                }
            });
            statements.keySet().removeAll(open);
        }
        for (Statement statement : open) {
            statement.close();
        }
    }

    @Override
    public XAResource xaResource() {
        return resource;
    }

    @Override
    public long number() {
        return number;
    }

    @Override
    public boolean isUsable() {
        try {
            return connection.isValid(5);
        } catch (SQLException | RuntimeException error) {
            return false;
        }
    }

    @Override
    public boolean reset() {
        try {
            // Rows that are still read would be read in the next transaction, and fail there.
            closeStatements(null);
            while (!undos.isEmpty()) {
                undos.pop().run();
            }
            if (!connection.getAutoCommit()) {
                connection.rollback();
                connection.setAutoCommit(true);
            }
            owner.dialect(connection).labelAgain(connection, owner.label());
            connection.clearWarnings();
        } catch (Exception error) {
            return false;
        }
        boolean isGood = !isSuspect || isUsable();
        isSuspect = false;
        return isGood;
    }

    @Override
    public void close() {
        close(xa);
    }

    static void close(XAConnection xa) {
        try {
            xa.close();
        } catch (SQLException | RuntimeException error) {
            Manager.LOG.log(Level.DEBUG, "a connection can't be closed", error);
        }
    }
}
