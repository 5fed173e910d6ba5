import garterfossil.Manager;
import garterfossil.jdbc.JdbcResource;
import garterfossil.jta.JtaTransactionManager;
import java.nio.file.Path;
import java.sql.Connection;
import java.sql.SQLException;
import java.util.Map;
import java.util.Properties;
import java.util.concurrent.ConcurrentHashMap;
import javax.sql.DataSource;
import javax.transaction.RollbackException;
import javax.transaction.Status;
import javax.transaction.Transaction;
import javax.transaction.TransactionManager;
import org.hibernate.SessionFactory;
import org.hibernate.cfg.Configuration;
import org.hibernate.connection.ConnectionProvider;
import org.hibernate.transaction.TransactionManagerLookup;

/**
 * Hibernate over two databases: what its current sessions hold is written as the transaction is
 * committed, at both.
 *
 * <p>Usage: Persist LOG PROGRAM URL URL TOKEN. Writes TOKEN-committed and, once a time-out has
 * rolled back TOKEN-late, TOKEN-next; and not TOKEN-undone. Prints how each ended.
 */
public class Persist {
    /** A row of the table `alone`. */
    public static class Alone {
        private String gtrid;
    }

    private static final String MAPPING = "<?xml version='1.0'?><!DOCTYPE hibernate-mapping PUBLIC '-//Hibernate/Hibernate Mapping DTD 3.0//EN'"
        + " 'http://www.hibernate.org/dtd/hibernate-mapping-3.0.dtd'><hibernate-mapping><class name='Persist$Alone' table='alone' lazy='false'>"
        + "<id name='gtrid' access='field' type='string'><generator class='assigned'/></id></class></hibernate-mapping>";
    private static final Map<String, DataSource> SOURCES = new ConcurrentHashMap<>();
    private static JtaTransactionManager jta;

    /** The connections of a database, by the name in Hibernate's settings. */
    public static class Provider implements ConnectionProvider {
        private DataSource source;

        @Override
        public void configure(Properties settings) {
            source = SOURCES.get(settings.getProperty("name"));
        }

        @Override
        public Connection getConnection() throws SQLException {
            return source.getConnection();
        }

        @Override
        public void closeConnection(Connection connection) throws SQLException {
            connection.close();
        }

        @Override
        public void close() {
        }

        @Override
        public boolean supportsAggressiveRelease() {
            return true;
        }
    }

    /** The transaction manager, as Hibernate asks for it. */
    public static class Lookup implements TransactionManagerLookup {
        @Override
        public TransactionManager getTransactionManager(Properties settings) {
            return jta;
        }

        @Override
        public String getUserTransactionName() {
            return null;
        }

        @Override
        public Object getTransactionIdentifier(Transaction transaction) {
            return transaction;
        }
    }

    private static SessionFactory factory(String name, String dialect) {
        return new Configuration().addXML(MAPPING)
            .setProperty("name", name)
            .setProperty("hibernate.dialect", "org.hibernate.dialect." + dialect)
            .setProperty("hibernate.connection.provider_class", Provider.class.getName())
            .setProperty("hibernate.transaction.manager_lookup_class", Lookup.class.getName())
            .setProperty("hibernate.transaction.factory_class", "org.hibernate.transaction.CMTTransactionFactory")
            .setProperty("hibernate.current_session_context_class", "jta")
            .setProperty("hibernate.transaction.flush_before_completion", "true")
            .setProperty("hibernate.temp.use_jdbc_metadata_defaults", "false")
            .buildSessionFactory();
    }

    private static void save(SessionFactory[] factories, String token) throws Exception {
        jta.begin();
        for (SessionFactory factory : factories) {
            Alone it = new Alone();
            it.gtrid = token;
            factory.getCurrentSession().save(it);
        }
    }

    public static void main(String[] words) throws Exception {
        String[] names = {"db0", "db1"}, dialects = {"PostgreSQLDialect", "MySQL5InnoDBDialect"};
        JdbcResource[] resources = new JdbcResource[2];
        Manager.Builder builder = Manager.over(Path.of(words[0])).program(words[1]);
        for (int number = 0; number < 2; number++) {
            resources[number] = JdbcResource.of(names[number], Speed.source(words[2 + number]));
            builder.resource(resources[number]);
        }
        try (Manager manager = builder.start()) {
            jta = new JtaTransactionManager(manager);
            SessionFactory[] factories = new SessionFactory[2];
            for (int number = 0; number < 2; number++) {
                SOURCES.put(names[number], resources[number].dataSource(manager));
                factories[number] = factory(names[number], dialects[number]);
            }
            save(factories, words[4] + "-committed");
            jta.commit();
            save(factories, words[4] + "-undone");
            factories[0].getCurrentSession().flush();
            jta.rollback();
            jta.setTransactionTimeout(1);
            save(factories, words[4] + "-late");
            factories[1].getCurrentSession().flush();
            while (jta.getStatus() != Status.STATUS_ROLLEDBACK) {
                Thread.sleep(50);
            }
            try {
                jta.commit();
            } catch (RollbackException error) {
                System.out.println("rolled back");
            }
            jta.setTransactionTimeout(0);
            save(factories, words[4] + "-next");
            jta.commit();
            System.out.println("committed");
        }
    }
}
