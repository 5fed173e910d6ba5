package garterfossil.jdbc;

import garterfossil.Borrowed;
import garterfossil.Fault;
import garterfossil.Front;
import garterfossil.GlobalTransaction;
import garterfossil.Manager;
import java.lang.reflect.Method;
import java.sql.Connection;
import java.sql.SQLException;
import java.sql.SQLFeatureNotSupportedException;
import java.util.List;
import javax.sql.CommonDataSource;
import javax.sql.DataSource;
import javax.sql.XADataSource;

/**
 * Connections to a database. In a transaction each is the transaction's own and takes part in it,
 * and closing it leaves that as it is; outside it is an ordinary one, in autocommit.
 */
record PooledDataSource(Manager manager, JdbcResource resource, XADataSource source) {
    DataSource front() {
        // The first of them is what an XADataSource has, too.
        return (DataSource) Front.of(List.of(CommonDataSource.class, DataSource.class), this::invoke);
    }

    private Object invoke(Object front, Method method, Object[] words) throws Throwable {
        switch (method.getName()) {
            case "toString": return "connections to " + resource.name();
            case "getConnection": case "createConnectionBuilder":
                if (words != null || !method.getName().equals("getConnection")) {
                    throw new SQLFeatureNotSupportedException("the user is that of the XADataSource");
                }
                return connection();
            case "isWrapperFor": return under(front, (Class<?>) words[0]) != null;
            case "unwrap":
                Object found = under(front, (Class<?>) words[0]);
                if (found == null) {
                    throw new SQLException("no " + words[0]);
                }
                return found;
            default: return Front.direct(source, method, words);
        }
    }

    private Object under(Object front, Class<?> face) {
        return face.isInstance(front) ? front : face.isInstance(source) ? source : null;
    }

    private Connection connection() throws SQLException {
        GlobalTransaction transaction = manager.current();
        try {
            if (transaction == null) {
                Borrowed borrowed = manager.borrow(resource);
                return ConnectionHandle.alone(manager, (JdbcLink) borrowed.link(), borrowed::giveBack);
            }
            GlobalTransaction.Enlisted branch = transaction.enlist(resource);
            return ConnectionHandle.inTransaction(manager, (JdbcLink) branch.link(), branch.gate(), transaction);
        } catch (Fault fault) {
            throw new SQLException(fault.getMessage(), "08001", fault);
        }
    }
}
