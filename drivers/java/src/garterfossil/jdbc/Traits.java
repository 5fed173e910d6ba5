package garterfossil.jdbc;

import java.sql.Connection;
import java.sql.SQLException;
import java.util.ArrayList;
import java.util.List;
import java.util.Objects;
import java.util.Optional;
import java.util.UUID;

/**
 * What databases say of themselves: which one it is, and what it may not keep. The driver in Python
 * has the same texts of the first.
 */
final class Traits {
    private static final int NO_SUCH_TABLE = 1146;
    private static final String SERVER = "the server", VIEW = "garterfossil_identity";
    private static final int MOST_NAMED = 5;

    private Traits() {
    }

    // ** which one it is

    static String ofPostgreSql(Connection connection) {
        return first(connection, "SELECT 'the database ' || oid || ' of the system ' || system_identifier || ' of PostgreSQL'"
            + " FROM pg_control_system(), pg_database WHERE datname = current_database()").orElse(null);
    }

    /**
     * What a server calls itself changes with its machine. So it is only taken where the database
     * can't have a name of its own.
     */
    static String ofMariaDb(Connection connection, String kept) {
        Optional<String> own = kept == null || !kept.startsWith(SERVER) ? ownOfMariaDb(connection) : Optional.empty();
        if (own.isPresent()) {
            return "the database " + own.get() + " of MariaDB";
        }
        return first(connection, "SELECT VARIABLE_VALUE FROM information_schema.GLOBAL_VARIABLES WHERE VARIABLE_NAME = 'SERVER_UID'")
            .map(uid -> SERVER + " " + uid + " of MariaDB").orElse(null);
    }

    /**
     * What is in the view that is made in the database at its first use. None if it can't be made:
     * there is no database, or no privilege.
     */
    private static Optional<String> ownOfMariaDb(Connection connection) {
        String asked = "SELECT id FROM " + VIEW;
        try {
            try {
                return Optional.of(Dialect.rows(connection, asked).get(0));
            } catch (SQLException error) {
                if (error.getErrorCode() != NO_SUCH_TABLE) {
                    return Optional.empty();
                }
                // Of several that make it at once one does.
                Dialect.execute(connection, "CREATE SQL SECURITY INVOKER VIEW IF NOT EXISTS " + VIEW + " AS SELECT '" + UUID.randomUUID() + "' AS id");
                return Optional.of(Dialect.rows(connection, asked).get(0));
            }
        } catch (SQLException | IndexOutOfBoundsException error) {
            return Optional.empty();
        }
    }

    // ** what it may not keep

    static List<String> weaknessesOfPostgreSql(Connection connection) {
        List<String> found = new ArrayList<>();
        first(connection, "SHOW fsync").filter("off"::equals).ifPresent(it ->
            found.add("fsync is off: a crash of its machine may lose what it has voted for, and what it committed"));
        first(connection, "SHOW full_page_writes").filter("off"::equals).ifPresent(it ->
            found.add("full_page_writes is off: a crash of its machine may damage what it has voted for"));
        first(connection, "SHOW synchronous_commit").filter("off"::equals).ifPresent(it ->
            found.add("synchronous_commit is off: a crash may lose what was committed in one phase"));
        first(connection, "SHOW max_prepared_transactions").filter("0"::equals).ifPresent(it ->
            found.add("max_prepared_transactions is 0: no transaction over two resources can be committed. Set it to the manager's threads or more"));
        named(connection, "SELECT relname FROM pg_class WHERE relpersistence = 'u' AND relkind = 'r' ORDER BY 1").ifPresent(names ->
            found.add("a crash empties what is UNLOGGED: " + names));
        return found;
    }

    static List<String> weaknessesOfMariaDb(Connection connection) {
        List<String> found = new ArrayList<>();
        first(connection, "SELECT @@GLOBAL.innodb_flush_log_at_trx_commit").filter(it -> it.equals("0") || it.equals("2")).ifPresent(it ->
            found.add("innodb_flush_log_at_trx_commit is " + it + ": a crash of its machine may lose what it has voted for"));
        first(connection, "SELECT @@GLOBAL.innodb_doublewrite").filter("0"::equals).ifPresent(it ->
            found.add("innodb_doublewrite is off: a crash of its machine may damage what it has voted for"));
        named(connection, "SELECT TABLE_NAME FROM information_schema.TABLES t JOIN information_schema.ENGINES e ON t.ENGINE = e.ENGINE"
            + " WHERE TABLE_SCHEMA = DATABASE() AND e.TRANSACTIONS = 'NO' ORDER BY 1").ifPresent(names ->
            found.add("the engines of these tables know no transactions, so that work there stays whatever becomes of it: " + names));
        return found;
    }

    /** The names that a query finds, of which some are told; none if it finds none. */
    private static Optional<String> named(Connection connection, String query) {
        List<String> names = rows(connection, query);
        String more = names.size() > MOST_NAMED ? " and " + (names.size() - MOST_NAMED) + " more" : "";
        return names.isEmpty() ? Optional.empty() : Optional.of(String.join(", ", names.subList(0, Math.min(MOST_NAMED, names.size()))) + more);
    }

    /** The first that a query finds. */
    private static Optional<String> first(Connection connection, String query) {
        return rows(connection, query).stream().findFirst();
    }

    /** None if the user may not ask. */
    private static List<String> rows(Connection connection, String query) {
        try {
            return Dialect.rows(connection, query).stream().filter(Objects::nonNull).toList();
        } catch (SQLException error) {
            return List.of();
        }
    }
}
