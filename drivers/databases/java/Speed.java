import garterfossil.Manager;
import garterfossil.jdbc.JdbcResource;
import garterfossil.jta.JtaTransactionManager;
import java.nio.file.Path;
import java.sql.Connection;
import java.sql.PreparedStatement;
import java.sql.SQLException;
import java.util.ArrayList;
import java.util.HexFormat;
import java.util.List;
import java.util.concurrent.ExecutorService;
import java.util.concurrent.Executors;
import java.util.concurrent.Future;
import java.util.concurrent.ThreadLocalRandom;
import java.util.concurrent.atomic.AtomicLong;
import javax.sql.DataSource;
import javax.sql.XAConnection;
import javax.sql.XADataSource;
import javax.transaction.xa.XAResource;
import javax.transaction.xa.Xid;

/**
 * How many transfers a second are committed in two phases over two databases, from threads without
 * an interpreter's lock: by hand, through the coordinator {@code xatm serve}, and, where its class
 * is on the path, through Bitronix.
 *
 * <p>Usage: Speed URL URL FOLDER SECONDS ROUNDS THREADS PROGRAM LOG. Prints a line for each way and
 * round: the way, how many, and the microseconds of processor that each took of each program. The
 * PROGRAM is the coordinator.
 */
public class Speed {
    static final int ACCOUNTS = 128, RMS = 2;
    /** For so many seconds each way runs first: the machine compiles what runs often. */
    private static final double WARM = 10;

    /** A way to make transfers. */
    interface Way {
        /** The transfers of a thread. */
        Work work(int thread) throws Exception;

        void close() throws Exception;
    }

    /** Transfers, one after the other. */
    interface Work {
        void transfer(int[] accounts, int amount) throws Exception;

        void close() throws Exception;
    }

    /** An identifier of a branch. */
    record Branch(byte[] gtrid, byte[] bqual) implements Xid {
        static Branch of(String gtrid, int thread, int rm) {
            return new Branch(HexFormat.of().parseHex(gtrid), new byte[] {0, 0, 0, (byte) thread, 0, 0, 0, (byte) rm});
        }

        public int getFormatId() {
            return 7;
        }

        public byte[] getGlobalTransactionId() {
            return gtrid;
        }

        public byte[] getBranchQualifier() {
            return bqual;
        }

        // Drivers compare identifiers, and an array is equal to itself alone.
        public boolean equals(Object other) {
            return other instanceof Branch it && java.util.Arrays.equals(gtrid, it.gtrid) && java.util.Arrays.equals(bqual, it.bqual);
        }

        public int hashCode() {
            return java.util.Arrays.hashCode(gtrid);
        }
    }

    /** The statements of a transfer over a connection. */
    record Statements(PreparedStatement update, PreparedStatement insert) {
        static Statements over(Connection connection) throws SQLException {
            return new Statements(connection.prepareStatement("UPDATE account SET balance = balance + ? WHERE id = ?"),
                connection.prepareStatement("INSERT INTO moved VALUES (?, ?)"));
        }

        void move(int account, int amount, String name) throws SQLException {
            update.setInt(1, amount);
            update.setInt(2, account);
            update.executeUpdate();
            insert.setString(1, name);
            insert.setInt(2, Math.abs(amount));
            insert.executeUpdate();
        }
    }

    /** A thread's connections to both databases. */
    static final class Lines {
        private final XAConnection[] connections = new XAConnection[RMS];
        final XAResource[] resources = new XAResource[RMS];
        private final Statements[] statements = new Statements[RMS];

        Lines(XADataSource[] sources) throws SQLException {
            for (int rm = 0; rm < RMS; rm++) {
                connections[rm] = sources[rm].getXAConnection();
                resources[rm] = connections[rm].getXAResource();
                statements[rm] = Statements.over(connections[rm].getConnection());
            }
        }

        void move(int[] accounts, int amount, String name) throws SQLException {
            for (int rm = 0; rm < RMS; rm++) {
                statements[rm].move(accounts[rm], rm == 0 ? -amount : amount, name);
            }
        }

        void close() throws SQLException {
            for (XAConnection connection : connections) {
                connection.close();
            }
        }
    }

    /**
     * Each database is told to prepare and to commit, and nobody would know how to go on after a
     * crash.
     */
    static final class ByHand implements Way {
        private final XADataSource[] sources;
        private final AtomicLong numbers = new AtomicLong(ThreadLocalRandom.current().nextLong(1L << 40));

        ByHand(XADataSource[] sources) {
            this.sources = sources;
        }

        public Work work(int thread) throws SQLException {
            Lines lines = new Lines(sources);
            return new Work() {
                public void transfer(int[] accounts, int amount) throws Exception {
                    // Another incarnation than any of the coordinator's.
                    String name = String.format("%016x%016x", Integer.MAX_VALUE, numbers.getAndIncrement());
                    Branch[] branches = {Branch.of(name, 0, 0), Branch.of(name, 0, 1)};
                    for (int rm = 0; rm < RMS; rm++) {
                        lines.resources[rm].start(branches[rm], XAResource.TMNOFLAGS);
                    }
                    lines.move(accounts, amount, name);
                    for (int rm = 0; rm < RMS; rm++) {
                        lines.resources[rm].end(branches[rm], XAResource.TMSUCCESS);
                        lines.resources[rm].prepare(branches[rm]);
                    }
                    for (int rm = 0; rm < RMS; rm++) {
                        lines.resources[rm].commit(branches[rm], false);
                    }
                }

                public void close() throws SQLException {
                    lines.close();
                }
            };
        }

        public void close() {
        }
    }

    /** By the driver of drivers/java, as a program of JTA uses it. */
    static final class Through implements Way {
        private final Manager manager;
        private final JtaTransactionManager transactions;
        private final DataSource[] databases = new DataSource[RMS];
        private final AtomicLong numbers = new AtomicLong(System.nanoTime());

        Through(XADataSource[] sources, String program, String log, int threads) throws Exception {
            JdbcResource[] resources = new JdbcResource[RMS];
            Manager.Builder builder = Manager.over(Path.of(log)).program(program).threads(threads);
            for (int rm = 0; rm < RMS; rm++) {
                resources[rm] = JdbcResource.of("db" + rm, sources[rm]).maxConnections(threads);
                builder.resource(resources[rm]);
            }
            manager = builder.start();
            transactions = new JtaTransactionManager(manager);
            for (int rm = 0; rm < RMS; rm++) {
                databases[rm] = resources[rm].dataSource(manager);
            }
        }

        public Work work(int thread) {
            return new Work() {
                public void transfer(int[] accounts, int amount) throws Exception {
                    String name = String.format("c%031x", numbers.getAndIncrement());
                    transactions.begin();
                    for (int rm = 0; rm < RMS; rm++) {
                        try (Connection connection = databases[rm].getConnection()) {
                            Statements.over(connection).move(accounts[rm], rm == 0 ? -amount : amount, name);
                        }
                    }
                    transactions.commit();
                }

                public void close() {
                }
            };
        }

        public void close() {
            manager.close();
        }
    }

    static XADataSource source(String url) throws Exception {
        return (XADataSource) made(url, "org.postgresql.xa.PGXADataSource");
    }

    /** One for a mirror. */
    static DataSource plain(String url) throws Exception {
        return (DataSource) made(url, "org.postgresql.ds.PGSimpleDataSource");
    }

    private static Object made(String url, String atPostgreSql) throws Exception {
        String name = url.startsWith("jdbc:postgresql:") ? atPostgreSql : "org.mariadb.jdbc.MariaDbDataSource";
        Object source = Class.forName(name).getConstructor().newInstance();
        source.getClass().getMethod("setUrl", String.class).invoke(source, url);
        return source;
    }

    /** So many transfers a second, and what they cost. */
    record Rate(double rate, String cost) {
    }

    /**
     * Transfers a second on so many threads. The accounts of a thread are its own: nobody waits for
     * a lock.
     */
    static Rate rate(Way way, int threads, double seconds) throws Exception {
        ExecutorService pool = Executors.newFixedThreadPool(threads);
        List<Work> works = new ArrayList<>();
        for (int thread = 0; thread < threads; thread++) {
            works.add(way.work(thread));
        }
        Processors before = Processors.now();
        long begun = System.nanoTime(), until = begun + (long) (seconds * 1e9);
        List<Future<Integer>> counts = new ArrayList<>();
        for (int thread = 0; thread < threads; thread++) {
            int first = thread;
            counts.add(pool.submit(() -> transfers(works.get(first), first, threads, until)));
        }
        int sum = 0;
        for (Future<Integer> count : counts) {
            sum += count.get();
        }
        double took = (System.nanoTime() - begun) / 1e9;
        // What a closed connection's process took is no longer counted.
        String cost = Processors.now().eachSince(before, Math.max(1, sum));
        for (Work work : works) {
            work.close();
        }
        pool.shutdown();
        return new Rate(sum / took, cost);
    }

    private static int transfers(Work work, int first, int threads, long until) throws Exception {
        ThreadLocalRandom random = ThreadLocalRandom.current();
        int count = 0, mine = (ACCOUNTS - first + threads - 1) / threads;
        for (; System.nanoTime() < until; count++) {
            int[] accounts = {first + threads * random.nextInt(mine), first + threads * random.nextInt(mine)};
            work.transfer(accounts, random.nextInt(1, 51));
        }
        return count;
    }

    private static void run(List<String> names, List<Way> ways, int threads, double seconds, int rounds) throws Exception {
        for (Way way : ways) {
            rate(way, threads, WARM);
        }
        for (int round = 0; round < rounds; round++) {
            for (int way = 0; way < ways.size(); way++) {
                Rate found = rate(ways.get(way), threads, seconds);
                System.out.printf("%s %.1f %s%n", names.get(way), found.rate(), found.cost());
            }
        }
        for (Way way : ways) {
            way.close();
        }
    }

    public static void main(String[] words) {
        int status = 1;
        try {
            double seconds = Double.parseDouble(words[3]);
            int rounds = Integer.parseInt(words[4]), threads = Integer.parseInt(words[5]);
            XADataSource[] sources = {source(words[0]), source(words[1])};
            List<String> names = new ArrayList<>(List.of("hand", "coordinator"));
            List<Way> ways = new ArrayList<>(List.of(new ByHand(sources), new Through(sources, words[6], words[7], threads)));
            try {
                Class<?> way = Class.forName("Bitronix");
                ways.add((Way) way.getConstructor(String[].class, String.class).newInstance(new String[] {words[0], words[1]}, words[2]));
                names.add("bitronix");
            } catch (ClassNotFoundException error) {
                // It isn't there.
            }
            run(names, ways, threads, seconds, rounds);
            status = 0;
        } catch (Exception error) {
            error.printStackTrace();
        }
        // Threads that still run would keep it up.
        System.exit(status);
    }
}
