package garterfossil.jdbc;

import garterfossil.Fault;
import garterfossil.Front;
import garterfossil.Gate;
import garterfossil.GlobalTransaction;
import garterfossil.Manager;
import java.lang.reflect.Method;
import java.sql.CallableStatement;
import java.sql.Connection;
import java.sql.DatabaseMetaData;
import java.sql.PreparedStatement;
import java.sql.ResultSet;
import java.sql.SQLException;
import java.sql.Statement;
import java.util.Map;

/**
 * A connection as a program has it. All its work, and that of what it gives out, goes through a
 * gate, which is shut as the transaction ends.
 */
final class ConnectionHandle {
    private static final Gate.Work NOTHING = () -> { };
    /** The settings that are taken back, and how each is read. */
    private static final Map<String, String> SETTINGS = Map.of("setTransactionIsolation", "getTransactionIsolation", "setReadOnly", "isReadOnly",
        "setCatalog", "getCatalog", "setSchema", "getSchema");

    private final Manager manager;
    private final JdbcLink link;
    private final Connection connection;
    private final Gate gate;
    // The transaction, or null outside of any.
    private final GlobalTransaction transaction;
    private final Runnable whenClosed;
    private final Connection front;
    private volatile boolean isClosed;

    private ConnectionHandle(Manager manager, JdbcLink link, Gate gate, GlobalTransaction transaction, Runnable whenClosed) {
        this.manager = manager;
        this.link = link;
        this.gate = gate;
        this.transaction = transaction;
        this.whenClosed = whenClosed;
        connection = link.connection;
        front = Front.of(Connection.class, (it, method, words) -> ofConnection(method, words));
    }

    static Connection inTransaction(Manager manager, JdbcLink link, Gate gate, GlobalTransaction transaction) {
        return new ConnectionHandle(manager, link, gate, transaction, () -> { }).front;
    }

    static Connection alone(Manager manager, JdbcLink link, Runnable whenClosed) {
        return new ConnectionHandle(manager, link, new Gate(), null, whenClosed).front;
    }

    /** Whether a call ends the transaction of a connection by itself. */
    static boolean isEnd(Method method, Object[] words) {
        return switch (method.getName()) {
            case "commit" -> true;
            case "rollback" -> words == null;
            case "setAutoCommit" -> (boolean) words[0];
            default -> false;
        };
    }

    private Object ofConnection(Method method, Object[] words) throws Throwable {
        switch (method.getName()) {
            case "toString": return "a connection of " + (transaction == null ? "no transaction" : transaction);
            case "isClosed": return isOver();
            case "isValid": return !isOver() && (boolean) through(connection, method, words, NOTHING);
            case "close": close(); return null;
            case "abort": isClosed = true; link.suspect(); return through(connection, method, words, NOTHING);
            case "isWrapperFor": case "unwrap": return face(front, connection, method, words);
            default: return inner(method, words);
        }
    }

    private void close() throws SQLException {
        if (!isClosed) {
            isClosed = true;
            try {
                link.closeStatements(this);
            } finally {
                whenClosed.run();
            }
        }
    }

    private Object inner(Method method, Object[] words) throws Throwable {
        seeOpen();
        String name = method.getName();
        boolean isHarmless = name.startsWith("get") || name.startsWith("is") || name.equals("clearWarnings") || name.equals("rollback");
        if (!isHarmless) {
            seeOwn();
        }
        if (transaction != null && isEnd(method, words)) {
            throw new SQLException(name + " isn't for a connection that takes part in " + transaction
                + ": end that by the UserTransaction or TransactionManager, or mark it by setRollbackOnly", "2D000");
        }
        if (transaction != null && name.endsWith("etAutoCommit")) {
            return words == null ? false : null;
        }
        if (SETTINGS.containsKey(name)) {
            // The next transaction finds the connection as it was.
            Object[] before = {Front.direct(connection, Connection.class.getMethod(SETTINGS.get(name)), null)};
            link.undoLater(() -> method.invoke(connection, before));
        }
        return wrapped(through(connection, method, words, NOTHING));
    }

    // ** what it gives out

    private Object wrapped(Object made) {
        if (made instanceof Statement target) {
            link.opened(target, this);
            Class<?> face = made instanceof CallableStatement ? CallableStatement.class
                : made instanceof PreparedStatement ? PreparedStatement.class : Statement.class;
            return Front.of(face, (it, method, words) -> ofStatement(it, target, method, words));
        }
        return made instanceof DatabaseMetaData
            ? Front.of(DatabaseMetaData.class, (it, method, words) -> ofChild(it, null, made, method, words, NOTHING)) : made;
    }

    private Object ofStatement(Object it, Statement target, Method method, Object[] words) throws Throwable {
        switch (method.getName()) {
            // Neither does work, so both may come at any time.
            case "close": link.closed(target); return Front.direct(target, method, words);
            case "cancel": return Front.direct(target, method, words);
            case "isClosed": return isOver() || (boolean) Front.direct(target, method, words);
            default: return ofChild(it, it, target, method, words, target::cancel);
        }
    }

    private Object ofChild(Object it, Object statement, Object target, Method method, Object[] words, Gate.Work work) throws Throwable {
        String name = method.getName();
        switch (name) {
            case "getConnection": return front;
            case "toString": return target.toString();
            case "isWrapperFor": case "unwrap": return face(it, target, method, words);
            default:
        }
        seeOpen();
        if (name.startsWith("execute") || name.equals("updateRow") || name.equals("insertRow") || name.equals("deleteRow")) {
            seeOwn();
        }
        Object made = through(target, method, words, work);
        return made instanceof ResultSet found ? rows(found, statement) : made;
    }

    /** Rows are read as they are; what can change them goes through the gate. */
    private Object rows(ResultSet target, Object statement) throws SQLException {
        boolean canChange = target.getConcurrency() == ResultSet.CONCUR_UPDATABLE;
        return Front.of(ResultSet.class, (it, method, words) -> switch (method.getName()) {
            case "getStatement" -> statement;
            case "toString", "isWrapperFor", "unwrap" -> ofChild(it, statement, target, method, words, NOTHING);
            default -> canChange ? ofChild(it, statement, target, method, words, NOTHING) : Front.direct(target, method, words);
        });
    }

    /**
     * Whether a thing has an interface, or what has it. Work on what lies under it goes past the
     * gate.
     */
    private Object face(Object it, Object target, Method method, Object[] words) throws Throwable {
        Class<?> wanted = (Class<?>) words[0];
        if (method.getName().equals("isWrapperFor")) {
            return wanted.isInstance(it) || wanted.isInstance(target);
        }
        if (wanted.isInstance(it)) {
            return it;
        }
        Object found = through(target, method, words, NOTHING);
        link.letOut();
        return found;
    }

    // ** what may be done

    private boolean isOver() {
        return isClosed || gate.isShut();
    }

    private void seeOpen() throws SQLException {
        if (isClosed) {
            throw new SQLException("the connection is closed", "08003");
        }
    }

    /**
     * Sees that work on it is of the thread's transaction, if that has one: else it would stay, or
     * not, whatever becomes of that.
     */
    private void seeOwn() throws SQLException {
        GlobalTransaction current = manager.current();
        if (current != null && current != transaction) {
            throw new SQLException("this connection " + (transaction == null ? "was got outside of any transaction" : "takes part in " + transaction)
                + ", and so its work would be no part of " + current + ", which the thread has: get one from the DataSource now that this has begun", "25000");
        }
    }

    /** Has work done, if the gate is open. */
    private Object through(Object target, Method method, Object[] words, Gate.Work work) throws Throwable {
        try {
            return Front.through(gate, work, target, method, words);
        } catch (Fault.Unavailable fault) {
            throw new SQLException(fault.getMessage(), "25000", fault);
        } catch (SQLException error) {
            link.suspect();
            throw error;
        }
    }
}
