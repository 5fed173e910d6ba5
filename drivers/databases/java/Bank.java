import garterfossil.Fault;
import garterfossil.Manager;
import garterfossil.jdbc.JdbcResource;
import garterfossil.jms.JmsResource;
import garterfossil.jta.JtaTransactionManager;
import java.io.FileWriter;
import java.io.PrintWriter;
import java.nio.file.Path;
import java.sql.Connection;
import java.sql.PreparedStatement;
import java.sql.SQLException;
import java.time.Duration;
import java.util.Map;
import java.util.UUID;
import java.util.concurrent.ConcurrentSkipListMap;
import java.util.concurrent.ThreadLocalRandom;
import java.util.concurrent.atomic.AtomicInteger;
import javax.jms.ConnectionFactory;
import javax.jms.JMSException;
import javax.jms.Session;
import javax.jms.TextMessage;
import javax.sql.DataSource;
import javax.transaction.RollbackException;
import org.apache.activemq.ActiveMQXAConnectionFactory;

/**
 * The driver that is killed, in Java: moves money between two databases, and orders through a
 * broker, on several threads.
 *
 * <p>Usage: Bank HOME PROGRAM SECONDS THREADS URL URL BROKER, or of a machine that has no broker,
 * and whose log is mirrored, Bank HOME PROGRAM SECONDS THREADS URL URL - LOG MIRROR. Each outcome
 * is written to HOME/told once it was told. One transaction of ten fails on purpose. Ends with a
 * line of JSON: how many there were of each kind.
 */
public class Bank {
    private static final class OnPurpose extends Exception {
        private static final long serialVersionUID = 1;
    }

    private final DataSource[] databases;
    private final ConnectionFactory broker;
    private final JtaTransactionManager manager;
    private final PrintWriter told;
    private final Map<String, AtomicInteger> counts = new ConcurrentSkipListMap<>();

    Bank(Manager manager, DataSource[] databases, ConnectionFactory broker, String home) throws Exception {
        this.databases = databases;
        this.broker = broker;
        this.manager = new JtaTransactionManager(manager);
        told = new PrintWriter(new FileWriter(home + "/told", true), true);
    }

    /** Transactions by one thread until a moment. */
    void work(long until) {
        while (System.nanoTime() < until) {
            String token = UUID.randomUUID().toString().replace("-", "");
            int dice = ThreadLocalRandom.current().nextInt(broker == null ? 13 : 20);
            String kind = dice < 11 ? "both" : dice < 13 ? Integer.toString(dice - 11) : dice < 17 ? "send" : "take";
            String end = transact(kind, token);
            counts.computeIfAbsent(end, it -> new AtomicInteger()).incrementAndGet();
            if (end.equals("committed") || end.equals("rolled-back")) {
                synchronized (told) {
                    told.println(token + " " + kind + " " + end);
                }
            } else if (end.equals("not-begun")) {
                sleep(50);
            }
        }
    }

    /** How it ended. */
    private String transact(String kind, String token) {
        boolean isWorked = false;
        try {
            manager.begin();
            isWorked = work(kind, token);
            if (ThreadLocalRandom.current().nextInt(10) == 0) {
                throw new OnPurpose();
            }
            manager.commit();
            return isWorked ? "committed" : "nothing-to-do";
        } catch (RollbackException error) {
            return "rolled-back";
        } catch (OnPurpose | SQLException | JMSException error) {
            return rolledBack(error);
        } catch (Exception error) {
            note(error);
            return manager.getTransaction() == null ? "unknown " + error.getClass().getSimpleName() : rolledBack(error);
        }
    }

    private String rolledBack(Exception cause) {
        try {
            manager.rollback();
            return "rolled-back";
        } catch (Exception error) {
            note(cause);
            note(error);
            return "unknown " + error.getClass().getSimpleName();
        }
    }

    private static void note(Exception error) {
        System.err.println(java.time.LocalTime.now() + " " + error);
    }

    private boolean work(String kind, String token) throws Exception {
        int amount = ThreadLocalRandom.current().nextInt(1, 51);
        switch (kind) {
            case "both":
                pay(0, -amount, "moved", token, amount);
                pay(1, amount, "moved", token, amount);
                return true;
            case "send":
                pay(0, -amount, "sent", token, amount);
                send(token + " " + amount);
                return true;
            case "take":
                String[] words = take();
                if (words != null) {
                    pay(1, Integer.parseInt(words[1]), "taken", words[0], Integer.parseInt(words[1]));
                }
                return words != null;
            default:
                int database = Integer.parseInt(kind);
                pay(database, amount, "alone", token, amount);
                pay(database, -amount, null, token, amount);
                return true;
        }
    }

    private void pay(int database, int change, String table, String token, int amount) throws SQLException {
        try (Connection connection = databases[database].getConnection()) {
            try (PreparedStatement update = connection.prepareStatement("UPDATE account SET balance = balance + ? WHERE id = ?")) {
                update.setInt(1, change);
                update.setInt(2, ThreadLocalRandom.current().nextInt(50));
                update.executeUpdate();
            }
            if (table == null) {
                return;
            }
            String values = table.equals("alone") ? " VALUES (?)" : " VALUES (?, " + amount + ")";
            try (PreparedStatement insert = connection.prepareStatement("INSERT INTO " + table + values)) {
                insert.setString(1, token);
                insert.executeUpdate();
            }
        }
    }

    private void send(String text) throws JMSException {
        javax.jms.Connection connection = broker.createConnection();
        try {
            Session session = connection.createSession(true, Session.SESSION_TRANSACTED);
            session.createProducer(session.createQueue("orders")).send(session.createTextMessage(text));
            session.close();
        } finally {
            connection.close();
        }
    }

    private String[] take() throws JMSException {
        javax.jms.Connection connection = broker.createConnection();
        try {
            connection.start();
            Session session = connection.createSession(true, Session.SESSION_TRANSACTED);
            TextMessage message = (TextMessage) session.createConsumer(session.createQueue("orders")).receive(100);
            session.close();
            return message == null ? null : message.getText().split(" ");
        } finally {
            connection.close();
        }
    }

    private static void sleep(long millis) {
        try {
            Thread.sleep(millis);
        } catch (InterruptedException error) {
            Thread.currentThread().interrupt();
        }
    }

    private static Manager start(Manager.Builder builder) throws InterruptedException {
        while (true) {
            try {
                return builder.start();
            } catch (Fault fault) {
                // The coordinator may be killed as it starts.
                note(fault);
                Thread.sleep(100);
            }
        }
    }

    public static void main(String[] words) throws Exception {
        JdbcResource[] databases = new JdbcResource[2];
        int threads = Integer.parseInt(words[3]);
        boolean isMirrored = words.length > 7;
        Path log = isMirrored ? Path.of(words[7]) : Path.of(words[0], "log.db");
        Manager.Builder builder = Manager.over(log).program(words[1]).threads(threads).timeout(Duration.ofSeconds(20));
        for (int number = 0; number < 2; number++) {
            databases[number] = JdbcResource.of("db" + number, Speed.source(words[4 + number])).maxConnections(threads + 2);
            builder.resource(databases[number]);
        }
        JmsResource broker = null;
        if (isMirrored) {
            builder.mirror(Speed.plain(words[8]));
        } else {
            broker = JmsResource.of("broker", new ActiveMQXAConnectionFactory(words[6])).maxConnections(threads + 2);
            builder.resource(broker);
        }
        try (Manager manager = start(builder)) {
            DataSource[] sources = {databases[0].dataSource(manager), databases[1].dataSource(manager)};
            Bank bank = new Bank(manager, sources, broker == null ? null : broker.connectionFactory(manager), words[0]);
            long until = System.nanoTime() + (long) (Double.parseDouble(words[2]) * 1e9);
            Thread[] workers = new Thread[threads];
            for (int number = 0; number < threads; number++) {
                workers[number] = new Thread(() -> bank.work(until));
                workers[number].start();
            }
            for (Thread worker : workers) {
                worker.join();
            }
            for (int count = 0; count < 600 && manager.owing() > 0; count++) {
                Thread.sleep(100);
            }
            System.out.println(bank.counts.toString().replace("=", "\": ").replace("{", "{\"").replace(", ", ", \""));
        }
        System.exit(0);
    }
}
