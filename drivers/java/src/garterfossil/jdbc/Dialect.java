package garterfossil.jdbc;

import garterfossil.Aside;
import garterfossil.BranchXid;
import garterfossil.Fault;
import garterfossil.Resource;
import java.lang.reflect.Method;
import java.nio.charset.StandardCharsets;
import java.sql.Connection;
import java.sql.DatabaseMetaData;
import java.sql.PreparedStatement;
import java.sql.ResultSet;
import java.sql.SQLException;
import java.sql.Statement;
import java.util.ArrayList;
import java.util.HexFormat;
import java.util.List;
import java.util.Locale;
import java.util.Set;
import java.util.stream.Collectors;
import java.util.stream.IntStream;
import javax.transaction.xa.XAResource;

/**
 * What kinds of databases differ in: how one knows its connections, and itself; how these are ended
 * from outside; and how it makes XA's calls. Each constant says what is otherwise than below.
 */
enum Dialect {
    POSTGRESQL {
        // Of the driver's class that was met last.
        private volatile Method stateOf;

        @Override
        long number(Connection connection, String label) throws SQLException {
            try (PreparedStatement statement = connection.prepareStatement("SELECT set_config('application_name', ?, false), pg_backend_pid()")) {
                statement.setString(1, application(label));
                try (ResultSet rows = statement.executeQuery()) {
                    rows.next();
                    return rows.getLong(2);
                }
            }
        }

        /** PostgreSQL keeps 63 bytes of it. */
        private String application(String label) {
            return label.length() < 64 ? label : String.format("%s~%08x", label.substring(0, 54), label.hashCode());
        }

        @Override
        void labelAgain(Connection connection, String label) throws SQLException {
            // The server tells its driver of each change of it.
            if (!application(label).equals(connection.getClientInfo("ApplicationName"))) {
                number(connection, label);
            }
        }

        @Override
        List<Long> all(Connection connection, String label) throws SQLException {
            return numbers(connection, "SELECT pid FROM pg_stat_activity WHERE application_name = '" + application(label)
                + "' AND datname = current_database() AND usename = current_user");
        }

        @Override
        void end(Connection connection, long number) throws SQLException {
            execute(connection, "SELECT pg_terminate_backend(" + number + ")");
        }

        @Override
        String identity(Connection connection, String kept) {
            return Traits.ofPostgreSql(connection);
        }

        @Override
        List<String> weaknesses(Connection connection) {
            return Traits.weaknessesOfPostgreSql(connection);
        }

        @Override
        String byHand(String verb, BranchXid xid) {
            return verb + " PREPARED '" + PreparedNames.of(xid) + "';";
        }

        @Override
        JdbcXaResource xaResource(Resource owner, XAResource inner, Connection connection) {
            return new PostgreSqlXaResource(owner, this, inner, connection);
        }

        @Override
        boolean isGivenUp(Connection connection) throws SQLException {
            try {
                // The driver knows it from the server's last answer, so that needn't be asked.
                Method asked = stateMethod(connection.getClass().getClassLoader());
                return asked.invoke(connection.unwrap(asked.getDeclaringClass())).toString().equals("FAILED");
            } catch (ReflectiveOperationException error) {
                return isRefused(connection);
            }
        }

        private Method stateMethod(ClassLoader loader) throws ReflectiveOperationException {
            Method known = stateOf;
            if (known == null || known.getDeclaringClass().getClassLoader() != loader) {
                known = Class.forName("org.postgresql.core.BaseConnection", false, loader).getMethod("getTransactionState");
                stateOf = known;
            }
            return known;
        }

        private boolean isRefused(Connection connection) throws SQLException {
            try {
                execute(connection, "SELECT 1");
                return false;
            } catch (SQLException error) {
                if ("25P02".equals(error.getSQLState())) {
                    return true;
                }
                throw error;
            }
        }
    },

    MARIADB {
        // Each connection holds a named lock, by which the next run of the manager knows it.
        private static final int LOCKS = 512;
        // 10.1 has blocks of statements outside of procedures (BEGIN NOT ATOMIC). MySQL, which this
        // is for too, has none.
        private static final int FIRST_WITH_BLOCKS = 1001;

        @Override
        long number(Connection connection, String label) throws SQLException {
            long number = numbers(connection, "SELECT CONNECTION_ID()").get(0);
            // Mostly the first is free. Only where it isn't, all are looked at.
            if (!takes(connection, label, (int) (number % LOCKS))) {
                List<Long> holders = holders(connection, label);
                for (int slot = 0; holders.get(slot) != 0 || !takes(connection, label, slot); slot++) {
                    if (slot == LOCKS - 1) {
                        throw new SQLException("all " + LOCKS + " named locks of the manager's connections are taken");
                    }
                }
            }
            return number;
        }

        private boolean takes(Connection connection, String label, int slot) throws SQLException {
            return numbers(connection, "SELECT GET_LOCK('" + lock(label, slot) + "', 0)").get(0) == 1;
        }

        /** The number of the connection that holds each lock, or 0. */
        private List<Long> holders(Connection connection, String label) throws SQLException {
            return numbers(connection, IntStream.range(0, LOCKS).mapToObj(slot -> "SELECT IS_USED_LOCK('" + lock(label, slot) + "')")
                .collect(Collectors.joining(" UNION ALL ")));
        }

        @Override
        List<Long> all(Connection connection, String label) throws SQLException {
            return holders(connection, label).stream().filter(number -> number != 0).toList();
        }

        @Override
        void end(Connection connection, long number) throws SQLException {
            try {
                execute(connection, "KILL CONNECTION " + number);
            } catch (SQLException error) {
                if (error.getErrorCode() != 1094) {
                    throw error;
                }
            }
        }

        @Override
        String identity(Connection connection, String kept) {
            return Traits.ofMariaDb(connection, kept);
        }

        @Override
        List<String> weaknesses(Connection connection) {
            return Traits.weaknessesOfMariaDb(connection);
        }

        @Override
        String byHand(String verb, BranchXid xid) {
            return "XA " + verb + " " + MariaDbXaResource.text(xid) + ";";
        }

        @Override
        JdbcXaResource xaResource(Resource owner, XAResource inner, Connection connection) throws SQLException {
            DatabaseMetaData data = connection.getMetaData();
            boolean hasBlocks = data.getDatabaseProductName().equalsIgnoreCase("MariaDB")
                && 100 * data.getDatabaseMajorVersion() + data.getDatabaseMinorVersion() >= FIRST_WITH_BLOCKS;
            return hasBlocks ? new MariaDbXaResource(owner, this, inner, connection) : super.xaResource(owner, inner, connection);
        }
    },

    /**
     * A database in this process, or one whose connections nothing here can end: they end as the
     * process does.
     */
    OTHER;

    static Dialect of(Connection connection) throws SQLException {
        String product = connection.getMetaData().getDatabaseProductName().toLowerCase(Locale.ROOT);
        return product.contains("postgresql") ? POSTGRESQL : product.contains("mariadb") || product.contains("mysql") ? MARIADB : OTHER;
    }

    /**
     * The name of one of the locks at MariaDB, which takes at most 192 letters there, and doesn't
     * know capital ones from others.
     */
    static String lock(String label, int slot) {
        String digits = HexFormat.of().formatHex(label.getBytes(StandardCharsets.US_ASCII));
        String text = digits.length() < 160 ? digits : String.format("%s~%08x", digits.substring(0, 150), label.hashCode());
        return "garterfossil." + text + "." + slot;
    }

    /** The number by which the database knows the connection, which has this label from now on. */
    long number(Connection connection, String label) throws SQLException {
        return 0;
    }

    /** The connection has its label again, if a program took it away. */
    void labelAgain(Connection connection, String label) throws SQLException {
    }

    /** The numbers of all connections of this label, of this one too. */
    List<Long> all(Connection connection, String label) throws SQLException {
        return List.of();
    }

    void end(Connection connection, long number) throws SQLException {
    }

    /**
     * What the database calls itself, which no other one does: the same as what was kept of it, if
     * it is the same; null if there is nothing.
     */
    String identity(Connection connection, String kept) {
        return null;
    }

    /** How the database is set so that it may not keep what it voted for, as texts to be read. */
    List<String> weaknesses(Connection connection) {
        return List.of();
    }

    /** The statement that ends a prepared branch: COMMIT or ROLLBACK. */
    String byHand(String verb, BranchXid xid) {
        return verb + " of " + xid;
    }

    /** The XAResource of a connection, as the manager calls it: over that of the driver. */
    JdbcXaResource xaResource(Resource owner, XAResource inner, Connection connection) throws SQLException {
        return new JdbcXaResource(owner, this, inner, connection);
    }

    /**
     * Whether the database has given the transaction of the connection up, and would answer
     * otherwise as it is prepared.
     */
    boolean isGivenUp(Connection connection) throws SQLException {
        return false;
    }

    /** Ends the connections of this label except those that are kept. Waits until they are gone. */
    void endOthers(Connection connection, String label, long own, Set<Long> kept) throws SQLException, Fault.Lost {
        long until = System.nanoTime() + 20_000_000_000L;
        while (true) {
            List<Long> numbers = all(connection, label).stream().filter(number -> number != own && !kept.contains(number)).toList();
            if (numbers.isEmpty()) {
                return;
            }
            if (System.nanoTime() > until) {
                throw new Fault.Lost("connections of an earlier manager stay", null);
            }
            for (long number : numbers) {
                end(connection, number);
            }
            Aside.pause(20);
        }
    }

    // ** statements

    /** What a query finds in its first column. */
    static List<String> rows(Connection connection, String query) throws SQLException {
        List<String> found = new ArrayList<>();
        try (Statement statement = connection.createStatement(); ResultSet rows = statement.executeQuery(query)) {
            while (rows.next()) {
                found.add(rows.getString(1));
            }
        }
        return found;
    }

    /** The same of numbers, of which one that is missing is 0. */
    private static List<Long> numbers(Connection connection, String query) throws SQLException {
        return rows(connection, query).stream().map(text -> text == null ? 0 : Long.parseLong(text)).toList();
    }

    static void execute(Connection connection, String text) throws SQLException {
        try (Statement statement = connection.createStatement()) {
            statement.execute(text);
        }
    }
}
