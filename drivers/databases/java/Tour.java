import garterfossil.Manager;
import garterfossil.jdbc.JdbcResource;
import garterfossil.jta.JtaTransactionManager;
import java.nio.file.Path;
import java.sql.Connection;
import java.sql.ResultSet;
import java.sql.SQLException;
import java.sql.Savepoint;
import java.sql.Statement;
import java.time.Duration;
import java.util.ArrayList;
import java.util.Arrays;
import java.util.List;
import java.util.UUID;
import javax.sql.DataSource;
import javax.sql.XADataSource;
import javax.transaction.RollbackException;
import javax.transaction.Transaction;
import javax.transaction.xa.XAResource;

/**
 * Stories over two databases, by JTA over drivers/java: how a transaction ends where all goes well,
 * and where something goes wrong at each of its moments. Each is looked at in the databases.
 *
 * <p>Usage: Tour FOLDER PROGRAM URL URL [PROCESSES], those of database 1. Prints a line for each
 * story, and at the end 'N stories, M wrong'.
 */
public class Tour {
    private static final String ENDED = "committed", UNDONE = "rolled back";

    private interface Work {
        void on(String token) throws Exception;
    }

    private final XADataSource[] plain = new XADataSource[2];
    private final Hooks[] hooks = new Hooks[2];
    private final DataSource[] databases = new DataSource[2];
    private final Manager manager;
    private final JtaTransactionManager jta;
    private int stories, wrong;
    // So many sessions the manager is to have had before the next story begins.
    private volatile long sessions;

    Tour(Path folder, String program, String[] urls) throws Exception {
        Manager.Builder builder = Manager.over(folder.resolve("tour.db")).name("tour").program(program).threads(4).timeout(Duration.ofSeconds(20));
        JdbcResource[] resources = new JdbcResource[2];
        for (int number = 0; number < 2; number++) {
            plain[number] = Speed.source(urls[number]);
            hooks[number] = new Hooks(plain[number]);
            resources[number] = JdbcResource.of("db" + number, hooks[number].source()).maxConnections(6);
            builder.resource(resources[number]);
        }
        manager = builder.start();
        jta = new JtaTransactionManager(manager);
        for (int number = 0; number < 2; number++) {
            databases[number] = resources[number].dataSource(manager);
        }
    }

    // ** how it is worked, and what is looked at

    private void run(int database, String... texts) throws SQLException {
        try (Connection connection = databases[database].getConnection(); Statement statement = connection.createStatement()) {
            for (String text : texts) {
                statement.execute(text);
            }
        }
    }

    private void write(int database, String token) throws SQLException {
        run(database, "INSERT INTO alone VALUES ('" + token + "')");
    }

    private void writeBoth(String token) throws SQLException {
        write(0, token);
        write(1, token);
    }

    /** A number that a query finds, by a connection of another program's. */
    private long ask(int database, String query) throws SQLException {
        javax.sql.XAConnection xa = plain[database].getXAConnection();
        try (Connection connection = xa.getConnection(); Statement statement = connection.createStatement()) {
            ResultSet rows = statement.executeQuery(query);
            return rows.next() ? rows.getLong(1) : 0;
        } finally {
            xa.close();
        }
    }

    private boolean isPostgreSQL(int database) {
        return plain[database].getClass().getName().contains("PG");
    }

    /** The connection is ended by the server. */
    private void lose(int database, Connection connection) throws Exception {
        String own = isPostgreSQL(database) ? "SELECT pg_backend_pid()" : "SELECT CONNECTION_ID()";
        long number;
        try (Statement statement = connection.createStatement(); ResultSet rows = statement.executeQuery(own)) {
            rows.next();
            number = rows.getLong(1);
        }
        end(database, number);
    }

    private void end(int database, long number) throws Exception {
        if (isPostgreSQL(database)) {
            ask(database, "SELECT CASE WHEN pg_terminate_backend(" + number + ") THEN 1 ELSE 0 END");
            return;
        }
        javax.sql.XAConnection xa = plain[database].getXAConnection();
        try (Statement statement = xa.getConnection().createStatement()) {
            statement.execute("KILL CONNECTION " + number);
        } finally {
            xa.close();
        }
    }

    private void endCoordinator() throws Exception {
        sessions = upToNow() + 1;
        for (ProcessHandle it : ProcessHandle.current().children().toArray(ProcessHandle[]::new)) {
            it.destroyForcibly();
            it.onExit().get();
        }
    }

    private long upToNow() {
        return manager.counts().get("sessions").longValue();
    }

    /**
     * The manager sees once a second whether the coordinator is there. A transaction that begins
     * before that is rolled back. A process that was killed is there for a while still, so it is no
     * sign of the next session.
     */
    private void awaitNext() throws InterruptedException {
        long until = System.nanoTime() + 20_000_000_000L;
        while (upToNow() < sessions && System.nanoTime() < until) {
            Thread.sleep(20);
        }
        Thread.sleep(500);
    }

    /** Has a transaction worked and ended: how that came out. */
    private String transact(String token, Work work) throws Exception {
        jta.begin();
        try {
            work.on(token);
        } catch (SQLException error) {
            jta.rollback();
            return UNDONE;
        }
        if (jta.getTransaction() == null) {
            return UNDONE;
        }
        try {
            jta.commit();
            return ENDED;
        } catch (RollbackException error) {
            return UNDONE;
        }
    }

    /**
     * Tells a story: both databases hold the work where it was committed, else none does; or one of
     * them alone, if only that took part.
     */
    private void story(String name, String wanted, List<Integer> over, Work work) {
        String token = UUID.randomUUID().toString().replace("-", ""), end;
        try {
            end = transact(token, work);
            awaitNext();
            for (int count = 0; count < 300 && manager.owing() > 0; count++) {
                Thread.sleep(50);
            }
            for (int database = 0; database < 2; database++) {
                boolean holds = ask(database, "SELECT COUNT(*) FROM alone WHERE gtrid = '" + token + "'") == 1;
                if (holds != (end.equals(ENDED) && over.contains(database))) {
                    end += ", and database " + database + (holds ? " has it" : " hasn't");
                }
            }
        } catch (Exception error) {
            end = error.toString();
            jta.suspend();
        }
        stories++;
        wrong += end.equals(wanted) ? 0 : 1;
        System.out.println((end.equals(wanted) ? "ok    " : "WRONG ") + "Java: " + name + ": " + end);
    }

    private void story(String name, String wanted, Work work) {
        story(name, wanted, List.of(0, 1), work);
    }

    // ** stories

    private void withoutFaults() {
        story("all goes well", ENDED, this::writeBoth);
        for (int database = 0; database < 2; database++) {
            int one = database;
            story("database " + one + " alone: one phase", ENDED, List.of(one), token -> write(one, token));
        }
        story("the program rolls back", UNDONE, token -> {
            writeBoth(token);
            jta.rollback();
        });
        story("the program allows no commit", UNDONE, token -> {
            writeBoth(token);
            jta.setRollbackOnly();
        });
        story("one in another that is suspended", ENDED, token -> {
            write(0, token);
            Transaction outer = jta.suspend();
            story("the one inside", UNDONE, inner -> {
                write(1, inner);
                throw new SQLException("on purpose");
            });
            jta.resume(outer);
            write(1, token);
        });
    }

    private void statementsFail() {
        for (int database = 0; database < 2; database++) {
            int one = database;
            story("a key is there twice at database " + one, UNDONE, token -> {
                writeBoth(token);
                write(one, token);
            });
        }
        story("the program goes on after a statement that failed at PostgreSQL", UNDONE, token -> {
            writeBoth(token);
            int one = isPostgreSQL(0) ? 0 : 1;
            try {
                run(one, "SELECT 1 / 0");
            } catch (SQLException error) {
                // It doesn't care, but the database has given the transaction up.
            }
        });
        story("a savepoint takes a statement back that failed at PostgreSQL", ENDED, token -> {
            writeBoth(token);
            try (Connection connection = databases[isPostgreSQL(0) ? 0 : 1].getConnection(); Statement statement = connection.createStatement()) {
                Savepoint before = connection.setSavepoint();
                try {
                    statement.execute("SELECT 1 / 0");
                } catch (SQLException error) {
                    connection.rollback(before);
                }
            }
        });
        if (!isPostgreSQL(1)) {
            story("the program goes on after a deadlock at MariaDB", UNDONE, token -> {
                writeBoth(token);
                runIntoADeadlock();
            });
        }
        story("PostgreSQL votes no", UNDONE, token -> {
            writeBoth(token);
            run(isPostgreSQL(0) ? 0 : 1, "INSERT INTO once VALUES (1)");
        });
        story("it takes too long", UNDONE, token -> {
            Transaction none = jta.suspend();
            none.rollback();
            jta.setTransactionTimeout(1);
            jta.begin();
            jta.setTransactionTimeout(0);
            writeBoth(token);
            run(isPostgreSQL(0) ? 0 : 1, "SELECT pg_sleep(6)");
        });
    }

    /** What PostgreSQL's driver has beside JDBC goes past the connection of the pool. */
    private void pastTheGate() {
        story("COPY behind a time-out, by a connection that was unwrapped", UNDONE, token -> {
            jta.suspend().rollback();
            jta.setTransactionTimeout(1);
            jta.begin();
            jta.setTransactionTimeout(0);
            writeBoth(token + "-");
            try (Connection connection = databases[isPostgreSQL(0) ? 0 : 1].getConnection()) {
                Class<?> face = Class.forName("org.postgresql.PGConnection");
                Object copies = face.getMethod("getCopyAPI").invoke(connection.unwrap(face));
                Thread.sleep(2500);
                copies.getClass().getMethod("copyIn", String.class, java.io.Reader.class)
                    .invoke(copies, "COPY alone FROM STDIN", new java.io.StringReader(token + "\n"));
            } catch (java.lang.reflect.InvocationTargetException error) {
                // It is refused.
            }
        });
    }

    /**
     * Another transaction waits for a row of this one, which then asks for one of that; and this
     * one has done less, so it is rolled back.
     */
    private void runIntoADeadlock() throws Exception {
        javax.sql.XAConnection xa = plain[1].getXAConnection();
        try (Connection other = xa.getConnection(); Statement statement = other.createStatement()) {
            other.setAutoCommit(false);
            statement.execute("UPDATE account SET balance = balance + 1 WHERE id > 1");
            run(1, "UPDATE account SET balance = balance + 1 WHERE id = 1");
            Thread waiting = new Thread(() -> {
                try {
                    statement.execute("UPDATE account SET balance = balance + 1 WHERE id = 1");
                } catch (SQLException error) {
                    error.printStackTrace();
                }
            });
            waiting.start();
            Thread.sleep(300);
            try {
                run(1, "UPDATE account SET balance = balance + 1 WHERE id = 2");
            } catch (SQLException error) {
                // It doesn't care, but the database has rolled the branch back.
            }
            waiting.join();
            other.rollback();
        } finally {
            xa.close();
        }
    }

    private void connectionsAreLost() {
        for (int database = 0; database < 2; database++) {
            int one = database;
            story("the connection to database " + one + " is lost in the work", UNDONE, token -> {
                writeBoth(token);
                try (Connection connection = databases[one].getConnection()) {
                    lose(one, connection);
                }
                Thread.sleep(100);
                run(one, "SELECT 1");
            });
            List<String> moments = new ArrayList<>(List.of("before end", "after end", "before prepare", "after prepare"));
            moments.addAll(List.of("before commit", "after commit"));
            // PostgreSQL has no xa_end, and MariaDB gets both calls by one request.
            moments.removeAll(isPostgreSQL(one) ? List.of("before end", "after end") : List.of("after end", "before prepare"));
            for (String moment : moments) {
                story("the connection to database " + one + " is lost " + moment, moment.endsWith("commit") || moment.equals("after prepare") ? ENDED : UNDONE,
                    token -> {
                        writeBoth(token);
                        loseAt(one, moment);
                    });
            }
        }
    }

    /** Its number is asked for before xa_end, after which MariaDB lets no statement through. */
    private void loseAt(int one, String moment) throws SQLException {
        try (Connection connection = databases[one].getConnection(); Statement statement = connection.createStatement()) {
            ResultSet rows = statement.executeQuery(isPostgreSQL(one) ? "SELECT pg_backend_pid()" : "SELECT CONNECTION_ID()");
            rows.next();
            long number = rows.getLong(1);
            hooks[one].at(moment, it -> {
                end(one, number);
                Thread.sleep(100);
            });
        }
    }

    /** MariaDB keeps nothing of such a branch, and says of it that it rolled back. */
    private void readsAlone() {
        if (!isPostgreSQL(1)) {
            story("database 1 was only read, and its connection is lost before commit", ENDED, List.of(0), token -> {
                write(0, token);
                run(1, "SELECT balance FROM account WHERE id = 1");
                loseAt(1, "before commit");
            });
        }
    }

    /** A database that is stopped keeps its own branches, and no others. */
    private void isSilent(String[] processes) {
        story("a time-out while database 1 says nothing", UNDONE, token -> {
            jta.suspend().rollback();
            jta.setTransactionTimeout(2);
            jta.begin();
            jta.setTransactionTimeout(0);
            write(1, token);
            write(0, token);
            signal("STOP", processes);
            try {
                seeNoLocks();
            } finally {
                signal("CONT", processes);
            }
        });
    }

    /** Sees that no transaction of the manager is open at PostgreSQL, a while after a time-out. */
    private void seeNoLocks() throws Exception {
        long until = System.nanoTime() + 20_000_000_000L;
        while (ask(0, "SELECT COUNT(*) FROM pg_stat_activity WHERE application_name LIKE 'garterfossil tour%' AND state LIKE 'idle in%'") > 0) {
            if (System.nanoTime() > until) {
                throw new IllegalStateException("its locks at database 0 stay");
            }
            Thread.sleep(100);
        }
    }

    private static void signal(String name, String[] processes) throws Exception {
        for (String process : processes) {
            new ProcessBuilder("kill", "-" + name, process).inheritIO().start().waitFor();
        }
    }

    private void coordinatorEnds() {
        story("the coordinator ends in the work", UNDONE, token -> {
            writeBoth(token);
            endCoordinator();
        });
        for (String moment : List.of("before prepare", "after prepare")) {
            story("the coordinator ends " + moment, UNDONE, token -> {
                writeBoth(token);
                hooks[0].at(moment, it -> endCoordinator());
            });
        }
        for (String moment : List.of("before commit", "after commit")) {
            story("the coordinator ends behind the decision, " + moment, ENDED, token -> {
                writeBoth(token);
                hooks[0].at(moment, it -> endCoordinator());
            });
        }
        story("all goes well again", ENDED, this::writeBoth);
    }

    /**
     * One that a driver before this one prepared, in an earlier session: PostgreSQL's own driver
     * named it, in base64.
     */
    private static boolean isOlderBranchEnded(Path folder, String program, XADataSource source) throws Exception {
        JdbcResource resource = JdbcResource.of("older", source);
        Manager.Builder builder = Manager.over(folder.resolve("older.db")).name("older").program(program).resource(resource);
        Manager first = builder.start();
        byte[] name = first.name().getBytes("US-ASCII"), gtrid = java.util.Arrays.copyOf(name, name.length + 16);
        gtrid[name.length + 7] = 1;
        gtrid[name.length + 15] = 1;
        first.close();
        prepare(source, new OlderXid(gtrid, new byte[] {0, 0, 0, 1, 0, 0, 0, 0}));
        long before = prepared(source);
        builder.start().close();
        System.out.println("Java: a branch named in base64: " + before + " prepared, and " + prepared(source) + " after a start");
        return before == 1 && prepared(source) == 0;
    }

    private static void prepare(XADataSource source, OlderXid xid) throws Exception {
        javax.sql.XAConnection xa = source.getXAConnection();
        try {
            Connection connection = xa.getConnection();
            xa.getXAResource().start(xid, XAResource.TMNOFLAGS);
            try (Statement statement = connection.createStatement()) {
                statement.execute("INSERT INTO alone VALUES ('older')");
            }
            xa.getXAResource().end(xid, XAResource.TMSUCCESS);
            xa.getXAResource().prepare(xid);
        } finally {
            xa.close();
        }
    }

    private static long prepared(XADataSource source) throws Exception {
        javax.sql.XAConnection xa = source.getXAConnection();
        try (Statement statement = xa.getConnection().createStatement()) {
            ResultSet rows = statement.executeQuery("SELECT COUNT(*) FROM pg_prepared_xacts WHERE gid LIKE '7\\_%'");
            rows.next();
            return rows.getLong(1);
        } finally {
            xa.close();
        }
    }

    private long inDoubt() throws SQLException {
        long count = 0;
        for (int database = 0; database < 2; database++) {
            count += isPostgreSQL(database) ? ask(database, "SELECT COUNT(*) FROM pg_prepared_xacts") : ask(database, "XA RECOVER") > 0 ? 1 : 0;
        }
        return count;
    }

    public static void main(String[] words) throws Exception {
        Tour tour = new Tour(Path.of(words[0]), words[1], Arrays.copyOfRange(words, 2, 4));
        tour.withoutFaults();
        tour.statementsFail();
        tour.pastTheGate();
        tour.readsAlone();
        tour.connectionsAreLost();
        if (words.length > 4) {
            tour.isSilent(words[4].split(","));
        }
        tour.coordinatorEnds();
        tour.manager.close();
        boolean isEnded = isOlderBranchEnded(Path.of(words[0]), words[1], tour.plain[tour.isPostgreSQL(0) ? 0 : 1]);
        tour.wrong += isEnded ? 0 : 1;
        long doubt = tour.inDoubt();
        System.out.println("Java: " + tour.stories + " stories, " + tour.wrong + " wrong, " + doubt + " in doubt at the end");
        System.exit(tour.wrong + doubt > 0 ? 1 : 0);
    }
}
