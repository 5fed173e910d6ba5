import bitronix.tm.BitronixTransactionManager;
import bitronix.tm.TransactionManagerServices;
import bitronix.tm.resource.jdbc.PoolingDataSource;
import java.io.File;
import java.sql.Connection;
import java.util.concurrent.atomic.AtomicLong;

/**
 * Transfers through the Bitronix Transaction Manager, with its own settings: each decision is
 * forced to the disk.
 */
public class Bitronix implements Speed.Way {
    private final PoolingDataSource[] sources = new PoolingDataSource[Speed.RMS];
    private final BitronixTransactionManager manager;
    private final AtomicLong numbers = new AtomicLong(System.nanoTime());

    public Bitronix(String[] urls, String folder) throws Exception {
        TransactionManagerServices.getConfiguration().setServerId("speed").setJournal("disk")
            .setLogPart1Filename(new File(folder, "first.tlog").getPath())
            .setLogPart2Filename(new File(folder, "second.tlog").getPath());
        for (int rm = 0; rm < Speed.RMS; rm++) {
            PoolingDataSource source = new PoolingDataSource();
            source.setUniqueName("db" + rm);
            source.setClassName(Speed.source(urls[rm]).getClass().getName());
            source.getDriverProperties().setProperty("url", urls[rm]);
            source.setMaxPoolSize(64);
            source.setPreparedStatementCacheSize(4);
            source.init();
            sources[rm] = source;
        }
        manager = TransactionManagerServices.getTransactionManager();
    }

    @Override
    public Speed.Work work(int thread) {
        return new Speed.Work() {
            @Override
            public void transfer(int[] accounts, int amount) throws Exception {
                String name = String.format("b%031x", numbers.getAndIncrement());
                manager.begin();
                for (int rm = 0; rm < Speed.RMS; rm++) {
                    try (Connection connection = sources[rm].getConnection()) {
                        Speed.Statements.over(connection).move(accounts[rm], rm == 0 ? -amount : amount, name);
                    }
                }
                manager.commit();
            }

            @Override
            public void close() {
            }
        };
    }

    @Override
    public void close() {
        manager.shutdown();
        for (PoolingDataSource source : sources) {
            source.close();
        }
    }
}
