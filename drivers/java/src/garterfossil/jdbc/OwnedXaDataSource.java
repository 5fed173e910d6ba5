package garterfossil.jdbc;

import garterfossil.Fault;
import garterfossil.Front;
import java.sql.Connection;
import java.sql.SQLException;
import java.util.Set;
import java.util.concurrent.ConcurrentHashMap;
import javax.sql.XAConnection;
import javax.sql.XADataSource;

/**
 * Connections for a pool that isn't the manager's: their XAResources say to which resource they
 * belong.
 */
final class OwnedXaDataSource {
    private final JdbcResource owner;
    private final XADataSource source;
    // Those that are open, by the numbers that the database gives them.
    private final Set<Long> open = ConcurrentHashMap.newKeySet();

    OwnedXaDataSource(JdbcResource owner, XADataSource source) {
        this.owner = owner;
        this.source = source;
    }

    Set<Long> open() {
        return open;
    }

    XADataSource front() {
        return Front.of(XADataSource.class, (it, method, words) -> {
            Object made = Front.direct(source, method, words);
            return made instanceof XAConnection xa ? owned(xa) : made;
        });
    }

    private XAConnection owned(XAConnection xa) throws SQLException {
        Connection first = xa.getConnection();
        try {
            owner.see(first);
        } catch (Fault.Lost error) {
            xa.close();
            throw new SQLException(error.getMessage(), "08001", error);
        }
        Dialect dialect = owner.dialect(first);
        long number = dialect.number(first, owner.label());
        JdbcXaResource resource = dialect.xaResource(owner, xa.getXAResource(), first);
        Connection given = resource instanceof PostgreSqlXaResource guard ? guarded(first, guard) : first;
        open.add(number);
        if (dialect != Dialect.OTHER) {
            resource.cutBy(() -> {
                open.remove(number);
                JdbcLink.close(xa);
            });
        }
        return Front.of(XAConnection.class, (it, method, words) -> {
            switch (method.getName()) {
                case "getXAResource": return resource;
                // A new one would shut the first.
                case "getConnection": return given;
                case "close": open.remove(number); return Front.direct(xa, method, words);
                default: return Front.direct(xa, method, words);
            }
        });
    }

    /**
     * The connection, whose transaction isn't the program's to end while it has a branch: other
     * drivers see to that themselves.
     */
    private static Connection guarded(Connection plain, PostgreSqlXaResource resource) {
        return Front.of(Connection.class, (it, method, words) -> {
            if (resource.hasBranch() && ConnectionHandle.isEnd(method, words)) {
                throw new SQLException(method.getName() + " isn't for a connection that has a branch", "2D000");
            }
            return Front.direct(plain, method, words);
        });
    }
}
