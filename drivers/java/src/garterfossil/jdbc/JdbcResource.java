package garterfossil.jdbc;

import garterfossil.BranchXid;
import garterfossil.Fault;
import garterfossil.Known;
import garterfossil.Link;
import garterfossil.Manager;
import garterfossil.PooledResource;
import java.lang.System.Logger.Level;
import java.sql.Connection;
import java.sql.SQLException;
import java.util.HashSet;
import java.util.Locale;
import java.util.Set;
import javax.sql.DataSource;
import javax.sql.XADataSource;

/**
 * A database, by its driver's XADataSource, with a pool of connections.
 *
 * <p>The manager ends connections that an earlier session left, and knows them by its own name and
 * the resource's: at PostgreSQL they are in the application_name, and at MariaDB in a named lock
 * (GET_LOCK) that each connection holds.
 */
public final class JdbcResource extends PooledResource<JdbcResource> {
    private final XADataSource source;
    private final OwnedXaDataSource owned;
    private volatile Dialect dialect;
    private volatile boolean isLookedAt;

    private JdbcResource(String name, XADataSource source) {
        super(name, 32);
        this.source = source;
        owned = new OwnedXaDataSource(this, source);
    }

    /** A database under a name that stays as long as the log does. */
    public static JdbcResource of(String name, XADataSource source) {
        return new JdbcResource(name, source);
    }

    @Override
    protected JdbcResource self() {
        return this;
    }

    /** Connections for programs: in a transaction of the manager each takes part in it. */
    public DataSource dataSource(Manager of) {
        return new PooledDataSource(of, this, source).front();
    }

    /**
     * XAConnections for a pool that isn't the manager's: their XAResources may be enlisted, since
     * they say whose they are.
     */
    public XADataSource xaDataSource() {
        return owned.front();
    }

    @Override
    public Link connect() throws Fault.Lost {
        return connection();
    }

    private JdbcLink connection() throws Fault.Lost {
        try {
            return new JdbcLink(source.getXAConnection(), this);
        } catch (SQLException | RuntimeException error) {
            throw new Fault.Lost("no connection to " + name(), error);
        }
    }

    /**
     * Sees that a new connection is one to the database that it always was; and once, that this
     * keeps what it promises.
     */
    void see(Connection connection) throws SQLException, Fault.Lost {
        Dialect kind = Dialect.of(connection);
        Known it = known();
        if (it != null) {
            // (The rest of a URL may have a password.)
            String url = String.valueOf(connection.getMetaData().getURL()).replaceFirst("\\?.*", "");
            it.see(kind.identity(connection, it.identity()), url);
        }
        if (!isLookedAt) {
            isLookedAt = true;
            kind.weaknesses(connection).forEach(weakness -> Manager.LOG.log(Level.WARNING, name() + ": " + weakness));
        }
    }

    /** What the database knows the connections by. */
    String label() {
        return label(" ");
    }

    /** What kind of database it is, as it says itself. */
    Dialect dialect(Connection connection) throws SQLException {
        if (dialect == null) {
            dialect = Dialect.of(connection);
        }
        return dialect;
    }

    @Override
    public String byHand(String call, BranchXid xid) {
        Dialect known = dialect == null ? Dialect.OTHER : dialect;
        return known.byHand(call.substring(3).toUpperCase(Locale.ROOT), xid);
    }

    /** What another pool has is ended, too. */
    @Override
    public void startAnew() {
        owned.open().clear();
    }

    @Override
    public void endOthers(Set<Long> kept) throws Fault.Lost {
        if (dialect == Dialect.OTHER) {
            return;
        }
        JdbcLink link = connection();
        Set<Long> all = new HashSet<>(kept);
        all.addAll(owned.open());
        try {
            dialect.endOthers(link.connection, label(), link.number(), all);
        } catch (SQLException | RuntimeException error) {
            throw new Fault.Lost("connections to " + name() + " can't be ended", error);
        } finally {
            link.close();
        }
    }
}
