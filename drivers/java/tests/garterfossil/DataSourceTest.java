package garterfossil;

import static org.junit.Assert.assertEquals;
import static org.junit.Assert.assertFalse;
import static org.junit.Assert.assertNotEquals;
import static org.junit.Assert.assertSame;
import static org.junit.Assert.assertThrows;
import static org.junit.Assert.assertTrue;

import garterfossil.jdbc.JdbcResource;
import java.nio.file.Files;
import java.sql.Connection;
import java.sql.SQLException;
import java.sql.SQLFeatureNotSupportedException;
import java.sql.Statement;
import java.time.Duration;
import javax.sql.DataSource;
import org.junit.After;
import org.junit.Before;
import org.junit.Rule;
import org.junit.Test;

/** Connections of the pool, in transactions and outside. */
public class DataSourceTest {
    @Rule
    public final World world = new World();
    private final StandInDatabase database = new StandInDatabase();
    private Manager manager;
    private DataSource source;
    private GlobalTransaction transaction;

    @Before
    public void start() throws Exception {
        world.manager.close();
        Files.delete(world.folder.resolve("log"));
        JdbcResource resource = JdbcResource.of("database", database.source()).maxConnections(2);
        manager = world.builder().resource(resource).start();
        source = resource.dataSource(manager);
    }

    @After
    public void stop() {
        manager.associate(null);
        manager.close();
    }

    private void begin() throws Exception {
        transaction = manager.begin(Duration.ofSeconds(20));
        manager.associate(transaction);
    }

    @Test
    public void oneConnectionForATransaction() throws Exception {
        begin();
        for (int count = 0; count < 3; count++) {
            try (Connection connection = source.getConnection(); Statement statement = connection.createStatement()) {
                statement.executeUpdate("work");
            }
        }
        transaction.commit();
        assertEquals(1, database.done.stream().distinct().count());
        assertEquals(1, database.resource.committed.size());
    }

    @Test
    public void aStatementAfterTheEndIsRefused() throws Exception {
        begin();
        Connection connection = source.getConnection();
        Statement statement = connection.createStatement();
        transaction.rollback();
        assertThrows(SQLException.class, () -> statement.executeUpdate("too late"));
        assertThrows(SQLException.class, connection::createStatement);
        assertTrue(connection.isClosed());
        assertTrue(database.done.isEmpty());
    }

    @Test
    public void aStatementAfterTheCoordinatorEndedIsRefused() throws Exception {
        begin();
        Statement statement = source.getConnection().createStatement();
        manager.session().coordinator.kill("a test");
        World.eventually(() -> {
            try {
                return manager.session().open() == 0;
            } catch (Fault fault) {
                return false;
            }
        });
        assertThrows(SQLException.class, () -> statement.executeUpdate("too late"));
        assertThrows(Fault.RolledBack.class, transaction::commit);
        assertTrue(database.done.isEmpty() && database.resource.committed.isEmpty());
    }

    @Test
    public void theTransactionIsNotTheConnections() throws Exception {
        begin();
        try (Connection connection = source.getConnection()) {
            assertFalse(connection.getAutoCommit());
            connection.setAutoCommit(false);
            SQLException error = assertThrows(SQLException.class, connection::commit);
            assertTrue(error.getMessage(), error.getMessage().contains("UserTransaction"));
            assertThrows(SQLException.class, connection::rollback);
            assertThrows(SQLException.class, () -> connection.setAutoCommit(true));
        }
        transaction.rollback();
    }

    @Test
    public void settingsAreTakenBack() throws Exception {
        begin();
        try (Connection connection = source.getConnection()) {
            connection.setTransactionIsolation(Connection.TRANSACTION_SERIALIZABLE);
        }
        transaction.commit();
        begin();
        try (Connection connection = source.getConnection()) {
            assertEquals(Connection.TRANSACTION_READ_COMMITTED, connection.getTransactionIsolation());
        }
        transaction.commit();
    }

    @Test
    public void aSettingThatCantBeRead() throws Exception {
        try (Connection connection = source.getConnection()) {
            SQLException error = assertThrows(SQLException.class, () -> connection.setCatalog("other"));
            assertEquals("no catalog", error.getMessage());
        }
    }

    @Test
    public void whatElseADataSourceHas() throws Exception {
        assertEquals(0, source.getLoginTimeout());
        assertTrue(source.isWrapperFor(javax.sql.XADataSource.class) && source.unwrap(DataSource.class) == source);
        assertThrows(SQLException.class, () -> source.unwrap(String.class));
        assertThrows(SQLFeatureNotSupportedException.class, () -> source.getConnection("user", "password"));
        assertThrows(SQLFeatureNotSupportedException.class, source::createConnectionBuilder);
    }

    @Test
    public void outsideOfTransactions() throws Exception {
        for (int count = 0; count < 5; count++) {
            try (Connection connection = source.getConnection()) {
                assertTrue(connection.getAutoCommit());
                connection.createStatement().executeUpdate("alone");
            }
        }
        assertEquals(1, database.done.stream().distinct().count());
        assertFalse(database.resource.calls.contains("start"));
    }

    /** The number of the connection by which something was done last. */
    private String last() {
        return database.done.get(database.done.size() - 1).split(" ")[0];
    }

    @Test
    public void aConnectionThatIsUnwrapped() throws Exception {
        for (boolean isTimeOut : new boolean[] {true, false}) {
            transaction = manager.begin(isTimeOut ? Duration.ofMillis(300) : Duration.ofSeconds(20));
            manager.associate(transaction);
            Connection connection = source.getConnection();
            StandInDatabase.Plain plain = connection.unwrap(StandInDatabase.Plain.class);
            plain.does("past the gate");
            String used = last();
            if (isTimeOut) {
                World.eventually(() -> transaction.outcome() == Outcome.ROLLED_BACK);
                // Behind xa_rollback its connection would be an ordinary one, and the program has
                // it still. So it is closed first.
                World.eventually(() -> manager.owing() == 0);
                assertFalse(database.resource.callsByLink.contains(used + " rollback"));
                assertThrows(Fault.RolledBack.class, transaction::commit);
            } else {
                transaction.commit();
            }
            begin();
            source.getConnection().createStatement().executeUpdate("another's");
            assertNotEquals(used, last());
            transaction.rollback();
        }
    }

    @Test
    public void noWayPastTheGate() throws Exception {
        begin();
        Connection connection = source.getConnection();
        Statement statement = connection.createStatement();
        assertSame(connection, statement.getConnection());
        assertSame(statement, statement.getResultSet().getStatement());
        transaction.rollback();
    }

    @Test
    public void statementsAreClosed() throws Exception {
        begin();
        Connection connection = source.getConnection();
        for (int count = 0; count < 3; count++) {
            connection.createStatement();
        }
        assertEquals(3, database.open.get());
        // They were left open, and rows of theirs would be read in the next transaction.
        transaction.commit();
        assertEquals(0, database.open.get());
    }

    @Test
    public void aConnectionOfNoTransactionUsedInOne() throws Exception {
        try (Connection connection = source.getConnection(); Statement statement = connection.createStatement()) {
            statement.executeUpdate("before");
            begin();
            SQLException error = assertThrows(SQLException.class, () -> statement.executeUpdate("inside"));
            assertTrue(error.getMessage(), error.getMessage().contains("got outside of any transaction"));
            assertThrows(SQLException.class, () -> connection.prepareStatement("inside"));
            assertThrows(SQLException.class, connection::commit);
            transaction.rollback();
            statement.executeUpdate("after");
        }
        assertEquals(2, database.done.size());
    }

    @Test
    public void aConnectionOfASuspendedTransaction() throws Exception {
        begin();
        GlobalTransaction outer = transaction;
        Statement statement = source.getConnection().createStatement();
        begin();
        SQLException error = assertThrows(SQLException.class, () -> statement.executeUpdate("of the outer one"));
        assertTrue(error.getMessage(), error.getMessage().contains("takes part in " + outer));
        transaction.rollback();
        manager.associate(outer);
        statement.executeUpdate("of the outer one");
        outer.commit();
        assertEquals(1, database.done.size());
    }

    @Test
    public void afterALossTheOthersAreAsked() throws Exception {
        begin();
        GlobalTransaction first = transaction;
        source.getConnection();
        begin();
        source.getConnection();
        transaction.commit();
        first.commit();
        // Two are idle, and its server is restarted: one transaction finds that out.
        database.resource.restart();
        begin();
        assertThrows(SQLException.class, source::getConnection);
        transaction.rollback();
        for (int count = 0; count < 2; count++) {
            begin();
            source.getConnection();
            transaction.commit();
        }
    }

    @Test
    public void connectionsThatAreTooOld() throws Exception {
        manager.close();
        JdbcResource resource = JdbcResource.of("database", database.source()).pooling(Pooling.usual().closingAfter(Duration.ofMillis(500)));
        manager = world.builder().resource(resource).start();
        DataSource other = resource.dataSource(manager);
        other.getConnection().close();
        ResourceManager rm = manager.resourceManager(resource);
        assertEquals(1, rm.idle());
        World.eventually(() -> rm.idle() == 0);
        assertThrows(IllegalArgumentException.class, () -> resource.maxConnections(0));
    }

    @Test
    public void noConnectionIsLeft() throws Exception {
        source.getConnection();
        source.getConnection();
        transaction = manager.begin(Duration.ofMillis(300));
        manager.associate(transaction);
        SQLException error = assertThrows(SQLException.class, source::getConnection);
        assertTrue(error.getMessage(), error.getMessage().contains("2 connections to database are in use"));
        assertTrue(error.getMessage(), error.getMessage().contains("thread '" + Thread.currentThread().getName() + "' for "));
        transaction.rollback();
    }
}
