import garterfossil.Manager;
import garterfossil.jdbc.JdbcResource;
import garterfossil.jta.JtaTransactionManager;
import java.nio.file.Path;
import javax.sql.DataSource;
import javax.transaction.TransactionManager;
import javax.transaction.UserTransaction;
import org.mariadb.jdbc.MariaDbDataSource;
import org.postgresql.xa.PGXADataSource;

/** The same program's set-up over Garterfossil. The fifth word is the program xatm. */
public class GarterfossilSetUp implements Transfers.SetUp {
    private final DataSource[] sources = new DataSource[2];
    private final Manager manager;
    private final JtaTransactionManager transactions;

    public GarterfossilSetUp(String[] words) throws Exception {
        PGXADataSource postgresql = new PGXADataSource();
        postgresql.setUrl(words[1]);
        JdbcResource[] resources = {JdbcResource.of("bank0", postgresql).maxConnections(8),
            JdbcResource.of("bank1", new MariaDbDataSource(words[2])).maxConnections(8)};
        manager = Manager.over(Path.of(words[3], "transfers.db")).program(words[4]).resource(resources[0]).resource(resources[1]).start();
        transactions = new JtaTransactionManager(manager);
        for (int number = 0; number < 2; number++) {
            sources[number] = resources[number].dataSource(manager);
        }
    }

    @Override
    public TransactionManager transactionManager() {
        return transactions;
    }

    @Override
    public UserTransaction userTransaction() {
        return transactions;
    }

    @Override
    public DataSource dataSource(int number) {
        return sources[number];
    }

    @Override
    public void close() {
        manager.close();
    }
}
