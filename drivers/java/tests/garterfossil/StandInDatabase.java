package garterfossil;

import java.lang.reflect.InvocationHandler;
import java.lang.reflect.Proxy;
import java.sql.Connection;
import java.sql.DatabaseMetaData;
import java.sql.PreparedStatement;
import java.sql.ResultSet;
import java.sql.SQLException;
import java.sql.Statement;
import java.util.ArrayList;
import java.util.Collections;
import java.util.List;
import java.util.Map;
import java.util.concurrent.atomic.AtomicInteger;
import javax.sql.XAConnection;
import javax.sql.XADataSource;

/**
 * A stand-in for a database with a JDBC driver: it notes each statement, and by which connection it
 * was done.
 */
final class StandInDatabase {
    /** What lies under a connection, as the driver's own. */
    interface Plain {
        void does(String text);
    }

    final StandInResource resource = new StandInResource("inner");
    /** How many statements are open. */
    final AtomicInteger open = new AtomicInteger();
    /** What was done: the number of the connection, and the text. */
    final List<String> done = Collections.synchronizedList(new ArrayList<>());

    XADataSource source() {
        return of(XADataSource.class, Map.of("getXAConnection", (proxy, method, words) -> connection()));
    }

    private XAConnection connection() throws SQLException {
        try {
            StandInResource.StandInLink link = (StandInResource.StandInLink) resource.connect();
            Connection connection = connection(link);
            return of(XAConnection.class, Map.of(
                "getConnection", (proxy, method, words) -> connection,
                "getXAResource", (proxy, method, words) -> link.xaResource(),
                "close", (proxy, method, words) -> {
                    link.close();
                    return null;
                }));
        } catch (Fault.Lost error) {
            throw new SQLException(error.getMessage());
        }
    }

    private Connection connection(StandInResource.StandInLink link) {
        long number = link.number();
        int[] isolation = {Connection.TRANSACTION_READ_COMMITTED};
        DatabaseMetaData data = of(DatabaseMetaData.class, Map.of("getDatabaseProductName", (proxy, method, words) -> "a stand-in"));
        return of(Connection.class, Map.of(
            "getMetaData", (proxy, method, words) -> data,
            "createStatement", (proxy, method, words) -> statement(Statement.class, number),
            "prepareStatement", (proxy, method, words) -> statement(PreparedStatement.class, number),
            "getTransactionIsolation", (proxy, method, words) -> isolation[0],
            "setTransactionIsolation", (proxy, method, words) -> {
                isolation[0] = (int) words[0];
                return null;
            },
            "getCatalog", (proxy, method, words) -> {
                throw new SQLException("no catalog");
            },
            "getAutoCommit", (proxy, method, words) -> true,
            "unwrap", (proxy, method, words) -> (Plain) text -> done.add(number + " " + text),
            "isValid", (proxy, method, words) -> link.isUsable()));
    }

    private <S extends Statement> S statement(Class<S> face, long number) {
        open.incrementAndGet();
        S[] made = arrayOf(face);
        made[0] = of(face, Map.of(
            "executeUpdate", (proxy, method, words) -> {
                done.add(number + " " + (words == null ? "" : words[0]));
                return 1;
            },
            "getResultSet", (proxy, method, words) -> of(ResultSet.class, Map.of("getStatement", (inner, asked, none) -> made[0])),
            "close", (proxy, method, words) -> {
                open.decrementAndGet();
                return null;
            }));
        return made[0];
    }

    @SuppressWarnings("unchecked")
    private static <S> S[] arrayOf(Class<S> face) {
        return (S[]) java.lang.reflect.Array.newInstance(face, 1);
    }

    /** An object of these methods; all others do nothing. */
    private static <F> F of(Class<F> face, Map<String, InvocationHandler> methods) {
        return face.cast(Proxy.newProxyInstance(face.getClassLoader(), new Class<?>[] {face}, (proxy, method, words) -> {
            InvocationHandler found = methods.get(method.getName());
            if (found != null) {
                return found.invoke(proxy, method, words);
            }
            Class<?> kind = method.getReturnType();
            return kind == boolean.class ? (Object) false : kind == int.class ? (Object) 0 : kind == String.class ? face.getSimpleName() : null;
        }));
    }
}
