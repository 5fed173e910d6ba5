import bitronix.tm.BitronixTransactionManager;
import bitronix.tm.TransactionManagerServices;
import bitronix.tm.resource.jdbc.PoolingDataSource;
import java.io.File;
import javax.sql.DataSource;
import javax.transaction.TransactionManager;
import javax.transaction.UserTransaction;

/** The set-up of a program that runs over Bitronix. */
public class BitronixSetUp implements Transfers.SetUp {
    private final PoolingDataSource[] sources = new PoolingDataSource[2];
    private final BitronixTransactionManager manager;

    public BitronixSetUp(String[] words) {
        TransactionManagerServices.getConfiguration().setServerId("transfers")
            .setLogPart1Filename(new File(words[3], "transfers1.tlog").getPath())
            .setLogPart2Filename(new File(words[3], "transfers2.tlog").getPath());
        String[] classes = {"org.postgresql.xa.PGXADataSource", "org.mariadb.jdbc.MariaDbDataSource"};
        for (int number = 0; number < 2; number++) {
            PoolingDataSource source = new PoolingDataSource();
            source.setUniqueName("bank" + number);
            source.setClassName(classes[number]);
            source.getDriverProperties().setProperty("url", words[1 + number]);
            source.setMaxPoolSize(8);
            source.init();
            sources[number] = source;
        }
        manager = TransactionManagerServices.getTransactionManager();
    }

    @Override
    public TransactionManager transactionManager() {
        return manager;
    }

    @Override
    public UserTransaction userTransaction() {
        return manager;
    }

    @Override
    public DataSource dataSource(int number) {
        return sources[number];
    }

    @Override
    public void close() {
        manager.shutdown();
        for (PoolingDataSource source : sources) {
            source.close();
        }
    }
}
