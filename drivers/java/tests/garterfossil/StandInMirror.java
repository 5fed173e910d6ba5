package garterfossil;

import java.lang.reflect.InvocationHandler;
import java.lang.reflect.Proxy;
import java.sql.Connection;
import java.sql.DatabaseMetaData;
import java.sql.PreparedStatement;
import java.sql.ResultSet;
import java.sql.ResultSetMetaData;
import java.sql.SQLException;
import java.sql.SQLWarning;
import java.sql.Statement;
import java.util.ArrayList;
import java.util.Iterator;
import java.util.List;
import java.util.Map;
import java.util.Set;
import java.util.TreeMap;
import java.util.concurrent.ConcurrentHashMap;
import javax.sql.DataSource;

/**
 * A stand-in for a mirror's database: it knows the statements that the driver makes there, by how
 * they begin.
 */
final class StandInMirror {
    /**
     * What it has of each manager: the log, the resources and the incarnation; and the decisions,
     * by the manager's name and the transaction.
     */
    final Map<String, List<Object>> managers = new ConcurrentHashMap<>();
    final Map<String, String> decisions = new ConcurrentHashMap<>();
    volatile boolean isUp = true;
    /** A warning beside the next commit. */
    volatile String warning;

    /** The transactions that it has. */
    Set<String> decided() {
        Set<String> found = new java.util.TreeSet<>();
        decisions.keySet().forEach(it -> found.add(it.split(" ")[1]));
        return found;
    }

    DataSource source() {
        return of(DataSource.class, Map.of("getConnection", (proxy, method, words) -> connection()));
    }

    private void seeUp() throws SQLException {
        if (!isUp) {
            throw new SQLException("the mirror is down");
        }
    }

    private Connection connection() throws SQLException {
        seeUp();
        DatabaseMetaData data = of(DatabaseMetaData.class, Map.of("getDatabaseProductName", (proxy, method, words) -> "PostgreSQL"));
        return of(Connection.class, Map.of(
            "getMetaData", (proxy, method, words) -> data,
            "isValid", (proxy, method, words) -> isUp,
            "createStatement", (proxy, method, words) -> of(Statement.class, Map.of()),
            "prepareStatement", (proxy, method, words) -> statement((String) words[0]),
            "getWarnings", (proxy, method, words) -> warned()));
    }

    private SQLWarning warned() {
        String said = warning;
        warning = null;
        return said == null ? null : new SQLWarning(said);
    }

    private PreparedStatement statement(String text) {
        Map<Integer, Object> given = new TreeMap<>();
        InvocationHandler give = (proxy, method, words) -> given.put((Integer) words[0], words[1]);
        return of(PreparedStatement.class, Map.of("setObject", give, "setString", give,
            "executeUpdate", (proxy, method, words) -> changed(text, new ArrayList<>(given.values())),
            "executeQuery", (proxy, method, words) -> rows(found(text, new ArrayList<>(given.values())))));
    }

    private synchronized int changed(String text, List<Object> given) throws SQLException {
        seeUp();
        String name = String.valueOf(given.get(given.size() - 1));
        if (text.startsWith("UPDATE garterfossil_manager SET incarnation")) {
            managers.get(name).set(2, given.get(0));
        } else if (text.contains("INTO garterfossil_manager") || text.startsWith("UPDATE garterfossil_manager SET log")) {
            managers.put(name, new ArrayList<>(given.subList(0, 3)));
        } else if (text.startsWith("INSERT INTO garterfossil_decision")) {
            int count = given.size() - 2;
            if (!managers.get(given.get(count)).get(2).equals(given.get(count + 1))) {
                return 0;
            }
            for (int at = 0; at < count; at += 2) {
                decisions.put(given.get(count) + " " + given.get(at), (String) given.get(at + 1));
            }
            return count / 2;
        } else {
            given.subList(1, given.size()).forEach(gtrid -> decisions.remove(given.get(0) + " " + gtrid));
        }
        return 1;
    }

    private synchronized List<List<String>> found(String text, List<Object> given) throws SQLException {
        seeUp();
        List<List<String>> found = new ArrayList<>();
        List<Object> known = given.isEmpty() ? null : managers.get(given.get(0));
        if (text.startsWith("SHOW")) {
            found.add(List.of("on"));
        } else if (text.startsWith("SELECT incarnation") && known != null) {
            found.add(List.of(known.get(2).toString()));
        } else if (text.startsWith("SELECT rms")) {
            found.add(List.of((String) known.get(1)));
        } else if (text.startsWith("SELECT gtrid")) {
            decisions.forEach((key, xids) -> {
                if (key.startsWith(given.get(0) + " ")) {
                    found.add(List.of(key.split(" ")[1], xids));
                }
            });
        } else if (text.startsWith("SELECT name")) {
            managers.forEach((name, it) -> found.add(List.of(name, (String) it.get(0))));
        }
        return found;
    }

    private static ResultSet rows(List<List<String>> rows) {
        Iterator<List<String>> left = rows.iterator();
        List<List<String>> at = new ArrayList<>(List.of(List.of()));
        ResultSetMetaData data = of(ResultSetMetaData.class,
            Map.of("getColumnCount", (proxy, method, words) -> rows.isEmpty() ? 0 : rows.get(0).size()));
        return of(ResultSet.class, Map.of(
            "getMetaData", (proxy, method, words) -> data,
            "next", (proxy, method, words) -> {
                boolean isOne = left.hasNext();
                if (isOne) {
                    at.set(0, left.next());
                }
                return isOne;
            },
            "getString", (proxy, method, words) -> at.get(0).get((Integer) words[0] - 1)));
    }

    /** An object of these methods; all others do nothing. */
    private static <F> F of(Class<F> face, Map<String, InvocationHandler> methods) {
        return face.cast(Proxy.newProxyInstance(face.getClassLoader(), new Class<?>[] {face}, (proxy, method, words) -> {
            InvocationHandler found = methods.get(method.getName());
            Class<?> kind = method.getReturnType();
            Object none = kind == boolean.class ? (Object) false : kind == int.class ? (Object) 0 : null;
            Object made = found == null ? none : found.invoke(proxy, method, words);
            return kind == void.class ? null : made;
        }));
    }
}
