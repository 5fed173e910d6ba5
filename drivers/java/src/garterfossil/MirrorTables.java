package garterfossil;

import java.sql.Connection;
import java.sql.PreparedStatement;
import java.sql.ResultSet;
import java.sql.SQLException;
import java.sql.SQLWarning;
import java.sql.Statement;
import java.time.Duration;
import java.util.ArrayList;
import java.util.Arrays;
import java.util.Collections;
import java.util.List;
import java.util.Locale;
import java.util.Map;
import java.util.TreeMap;
import java.util.concurrent.TimeoutException;
import java.util.stream.Collectors;
import javax.sql.DataSource;

/**
 * The tables of a mirror, over one connection to its database: PostgreSQL, or MariaDB. The driver
 * in Python has the same ones.
 */
final class MirrorTables {
    /**
     * By how much a failover raises the incarnation: by more than the starts that the mirror may
     * not have been told of.
     */
    static final long MARGIN = 100;
    /**
     * Texts are compared byte by byte. There is one row for each manager, and one for each of its
     * decisions.
     */
    private static final List<String> TABLES = List.of(
        "garterfossil_manager (name {16} PRIMARY KEY, log text NOT NULL, rms text NOT NULL, incarnation bigint NOT NULL)",
        "garterfossil_decision (name {16} NOT NULL, gtrid {32} NOT NULL, branches text NOT NULL, PRIMARY KEY (name, gtrid))");
    private static final String SEEN = "SELECT incarnation FROM garterfossil_manager WHERE name = ? FOR UPDATE";
    /** A connection that wasn't used for so many nanoseconds is asked before it is used again. */
    private static final long FRESH = 1_000_000_000;

    /** What is done in one transaction of the mirror's database. */
    interface Work<T> {
        T on(Connection connection) throws SQLException, Fault;
    }

    final String manager;
    private final DataSource source;
    private final Duration patience;
    private Connection connection;
    private boolean isPostgreSql;
    private long used;

    /** Those of a manager, of which each answer is waited for as long as this. */
    MirrorTables(DataSource source, String manager, Duration patience) {
        this.source = source;
        this.manager = manager;
        this.patience = patience;
    }

    // ** the connection

    /**
     * Does work in one transaction. If something fails, the connection is given up, and what was
     * under way with it.
     */
    synchronized <T> T once(Work<T> work) throws Fault {
        boolean isDone = false;
        try {
            Connection at = connected();
            T found = work.on(at);
            at.commit();
            seeNoWarning(at);
            isDone = true;
            used = System.nanoTime();
            return found;
        } catch (SQLException | RuntimeException error) {
            throw new Fault.Lost("no answer of the mirror", error);
        } finally {
            if (!isDone) {
                close();
            }
        }
    }

    /**
     * PostgreSQL answers a commit whose wait for the standby was cancelled as any other, with a
     * warning beside it.
     */
    private void seeNoWarning(Connection at) throws SQLException, Fault.Lost {
        SQLWarning warning = isPostgreSql ? at.getWarnings() : null;
        if (warning != null) {
            throw new Fault.Lost("it may be on one machine alone: " + warning.getMessage(), null);
        }
    }

    private Connection connected() throws SQLException, Fault.Lost {
        if (connection != null && System.nanoTime() - used > FRESH && !connection.isValid((int) Math.max(1, patience.toSeconds()))) {
            close();
        }
        if (connection == null) {
            connection = made();
            connection.setNetworkTimeout(Runnable::run, (int) patience.toMillis());
            isPostgreSql = connection.getMetaData().getDatabaseProductName().toLowerCase(Locale.ROOT).contains("postgresql");
            if (isPostgreSql) {
                run(connection, "SET client_min_messages = warning");
            } else if (isReplicated(connection)) {
                // A node of Galera shows what another one has committed only a moment later, unless
                // it is told to wait for that.
                run(connection, "SET SESSION wsrep_sync_wait = 1");
            }
            connection.setAutoCommit(false);
            connection.clearWarnings();
        }
        return connection;
    }

    /** A new connection, made by a thread of its own: the database may be silent. */
    private Connection made() throws Fault.Lost {
        try {
            return Aside.within(patience, source::getConnection, MirrorTables::close);
        } catch (TimeoutException error) {
            throw new Fault.Lost("no connection, and nothing was said for " + patience.toMillis() + " ms", null);
        } catch (Exception error) {
            throw new Fault.Lost("no connection", error);
        }
    }

    synchronized void close() {
        Connection old = connection;
        connection = null;
        if (old != null) {
            close(old);
        }
    }

    private static void close(Connection old) {
        try {
            old.close();
        } catch (SQLException | RuntimeException error) {
            Manager.LOG.log(System.Logger.Level.DEBUG, "a connection to the mirror can't be closed", error);
        }
    }

    // ** statements

    private static void run(Connection at, String text) throws SQLException {
        try (Statement statement = at.createStatement()) {
            statement.execute(text);
        }
    }

    private static PreparedStatement prepared(Connection at, String text, Object... words) throws SQLException {
        PreparedStatement statement = at.prepareStatement(text);
        for (int place = 0; place < words.length; place++) {
            statement.setObject(place + 1, words[place]);
        }
        return statement;
    }

    private static int change(Connection at, String text, Object... words) throws SQLException {
        try (PreparedStatement statement = prepared(at, text, words)) {
            return statement.executeUpdate();
        }
    }

    /** The rows that a query finds, by the texts in their columns. */
    private static List<List<String>> rows(Connection at, String text, Object... words) throws SQLException {
        try (PreparedStatement statement = prepared(at, text, words); ResultSet found = statement.executeQuery()) {
            List<List<String>> rows = new ArrayList<>();
            while (found.next()) {
                List<String> row = new ArrayList<>();
                for (int column = 1; column <= found.getMetaData().getColumnCount(); column++) {
                    row.add(found.getString(column));
                }
                rows.add(row);
            }
            return rows;
        }
    }

    /** Makes them, unless they are there. */
    void make() throws Fault {
        once(at -> {
            String type = isPostgreSql ? "varchar($1)" : "varchar($1) CHARACTER SET ascii COLLATE ascii_bin";
            for (String table : TABLES) {
                run(at, "CREATE TABLE IF NOT EXISTS " + table.replaceAll("\\{(\\d+)\\}", type));
            }
            return null;
        });
    }

    /** Whether what is committed there is on more than one machine. */
    boolean isReplicated(Connection at) throws SQLException {
        if (isPostgreSql) {
            return !rows(at, "SHOW synchronous_standby_names").get(0).get(0).isEmpty()
                && List.of("on", "remote_apply").contains(rows(at, "SHOW synchronous_commit").get(0).get(0));
        }
        return rows(at, "SHOW VARIABLES LIKE 'wsrep_on'").equals(List.of(List.of("wsrep_on", "ON")));
    }

    /**
     * The incarnation of the manager, which stays as it is until the transaction ends; -1 if the
     * mirror doesn't know it.
     */
    long incarnation(Connection at) throws SQLException {
        List<List<String>> found = rows(at, SEEN, manager);
        return found.isEmpty() ? -1 : Long.parseLong(found.get(0).get(0));
    }

    void setIncarnation(Connection at, long incarnation) throws SQLException {
        change(at, "UPDATE garterfossil_manager SET incarnation = ? WHERE name = ?", incarnation, manager);
    }

    /** The manager's log is there, of these resources, and in this incarnation. */
    void note(Connection at, String log, String rms, long incarnation, boolean isNew) throws SQLException {
        change(at, isNew ? "INSERT INTO garterfossil_manager (log, rms, incarnation, name) VALUES (?, ?, ?, ?)"
            : "UPDATE garterfossil_manager SET log = ?, rms = ?, incarnation = ? WHERE name = ?", log, rms, incarnation, manager);
    }

    /** The manager's transactions that are decided to commit, each with its branches. */
    Map<String, List<String>> decisions(Connection at) throws SQLException {
        Map<String, List<String>> found = new TreeMap<>();
        for (List<String> row : rows(at, "SELECT gtrid, branches FROM garterfossil_decision WHERE name = ?", manager)) {
            found.put(row.get(0), Arrays.asList(row.get(1).split(" ")));
        }
        return found;
    }

    /**
     * Adds decisions, of which none has a row, if the manager is in this incarnation. Whether they
     * are all there.
     */
    boolean insert(Connection at, Map<String, List<BranchXid>> decisions, long incarnation) throws SQLException {
        List<Object> words = new ArrayList<>();
        decisions.forEach((gtrid, xids) -> words.addAll(List.of(gtrid, xids.stream().map(BranchXid::toString).sorted().collect(Collectors.joining(" ")))));
        words.addAll(List.of(manager, incarnation));
        String values = "SELECT ? AS gtrid, ? AS branches" + " UNION ALL SELECT ?, ?".repeat(decisions.size() - 1);
        return change(at, "INSERT INTO garterfossil_decision (name, gtrid, branches) SELECT m.name, d.gtrid, d.branches FROM garterfossil_manager m"
            + " JOIN (" + values + ") d ON 1 = 1 WHERE m.name = ? AND m.incarnation = ? "
            + (isPostgreSql ? "FOR SHARE OF m" : "LOCK IN SHARE MODE"), words.toArray()) == decisions.size();
    }

    /** The rows of these transactions leave. */
    void remove(Connection at, List<String> gtrids) throws SQLException {
        List<Object> words = new ArrayList<>(List.of(manager));
        words.addAll(gtrids);
        String marks = String.join(", ", Collections.nCopies(gtrids.size(), "?"));
        change(at, "DELETE FROM garterfossil_decision WHERE name = ? AND gtrid IN (" + marks + ")", words.toArray());
    }

    /** The managers that the mirror knows, each with the path of its log. */
    Map<String, String> managers(Connection at) throws SQLException {
        Map<String, String> found = new TreeMap<>();
        for (List<String> row : rows(at, "SELECT name, log FROM garterfossil_manager")) {
            found.put(row.get(0), row.get(1));
        }
        return found;
    }

    /**
     * What the manager's log had: the lines of which {@code xatm log --make} makes it. The session
     * that had it can't decide any more.
     */
    List<String> takeOver() throws Fault {
        return once(at -> {
            long incarnation = incarnation(at) + MARGIN;
            setIncarnation(at, incarnation);
            List<String> lines = new ArrayList<>(List.of("name " + manager));
            String[] rms = rows(at, "SELECT rms FROM garterfossil_manager WHERE name = ?", manager).get(0).get(0).split(" ");
            for (int number = 0; number < rms.length; number++) {
                lines.add("rm " + number + " " + rms[number]);
            }
            lines.add("incarnation " + incarnation);
            decisions(at).forEach((gtrid, xids) -> lines.add(gtrid + " " + xids.size() + " " + String.join(" ", xids)));
            lines.add("end");
            return lines;
        });
    }
}
