import java.sql.Connection;
import java.sql.PreparedStatement;
import java.sql.SQLException;
import javax.sql.DataSource;
import javax.transaction.Status;
import javax.transaction.Synchronization;
import javax.transaction.TransactionManager;
import javax.transaction.UserTransaction;

/**
 * A program of JTA, as it was written against Bitronix: it moves money between two databases, and
 * knows no transaction manager but what its set-up gives it.
 *
 * <p>Usage: Transfers SETUP URL URL FOLDER [WORDS]. SETUP is the class of the set-up:
 * BitronixSetUp, or GarterfossilSetUp. Nothing else differs.
 */
public class Transfers {
    /** What is set up: a transaction manager, and a DataSource for each database. */
    public interface SetUp extends AutoCloseable {
        TransactionManager transactionManager();

        UserTransaction userTransaction();

        DataSource dataSource(int number);

        @Override
        void close() throws Exception;
    }

    private final SetUp setUp;
    private int committed;

    Transfers(SetUp setUp) {
        this.setUp = setUp;
    }

    private void change(int database, int amount) throws SQLException {
        try (Connection connection = setUp.dataSource(database).getConnection();
            PreparedStatement update = connection.prepareStatement("UPDATE account SET balance = balance + ? WHERE id = 1")) {
            update.setInt(1, amount);
            update.executeUpdate();
        }
    }

    /** Both accounts change, or none. */
    void move(int amount) throws Exception {
        UserTransaction transaction = setUp.userTransaction();
        transaction.setTransactionTimeout(20);
        transaction.begin();
        try {
            setUp.transactionManager().getTransaction().registerSynchronization(new Synchronization() {
                @Override
                public void beforeCompletion() {
                }

                @Override
                public void afterCompletion(int status) {
                    committed += status == Status.STATUS_COMMITTED ? 1 : 0;
                }
            });
            change(0, -amount);
            change(1, amount);
            if (amount < 0) {
                transaction.setRollbackOnly();
            }
        } finally {
            if (transaction.getStatus() == Status.STATUS_ACTIVE) {
                transaction.commit();
            } else {
                transaction.rollback();
            }
        }
    }

    public static void main(String[] words) throws Exception {
        try (SetUp made = (SetUp) Class.forName(words[0]).getConstructor(String[].class).newInstance((Object) words)) {
            Transfers transfers = new Transfers(made);
            for (int amount : new int[] {10, -5, 20}) {
                transfers.move(amount);
            }
            System.out.println(transfers.committed + " of 3 committed");
        }
        System.exit(0);
    }
}
