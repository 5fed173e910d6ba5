package garterfossil.jta;

import garterfossil.Fault;
import garterfossil.GlobalTransaction;
import garterfossil.Manager;
import garterfossil.Outcome;
import java.time.Duration;
import javax.transaction.HeuristicMixedException;
import javax.transaction.HeuristicRollbackException;
import javax.transaction.InvalidTransactionException;
import javax.transaction.NotSupportedException;
import javax.transaction.RollbackException;
import javax.transaction.Status;
import javax.transaction.SystemException;
import javax.transaction.Transaction;
import javax.transaction.TransactionManager;
import javax.transaction.UserTransaction;

/**
 * JTA's TransactionManager and UserTransaction (JTA 1.2, sections 3.1 and 3.2). A thread has one
 * transaction at a time.
 */
public final class JtaTransactionManager implements TransactionManager, UserTransaction {
    private final Manager manager;
    private final ThreadLocal<Integer> timeout = new ThreadLocal<>();

    /** That of a manager. */
    public JtaTransactionManager(Manager manager) {
        this.manager = manager;
    }

    @Override
    public void begin() throws NotSupportedException, SystemException {
        GlobalTransaction before = manager.current();
        if (before != null) {
            throw new NotSupportedException("this thread has " + before + ", which is " + before.outcome()
                + ": commit it or roll it back (in a finally), or suspend it");
        }
        Integer seconds = timeout.get();
        try {
            manager.associate(manager.begin(seconds == null ? manager.timeout() : Duration.ofSeconds(seconds)));
        } catch (Fault fault) {
            throw system(fault);
        }
    }

    @Override
    public void commit() throws RollbackException, HeuristicMixedException, HeuristicRollbackException, SystemException {
        required().commit();
    }

    @Override
    public void rollback() throws SystemException {
        JtaTransaction transaction = required();
        try {
            transaction.rollback();
        } finally {
            if (manager.current() == transaction.inner()) {
                manager.associate(null);
            }
        }
    }

    @Override
    public void setRollbackOnly() throws SystemException {
        required().setRollbackOnly();
    }

    @Override
    public int getStatus() {
        JtaTransaction transaction = getTransaction();
        return transaction == null ? Status.STATUS_NO_TRANSACTION : transaction.getStatus();
    }

    /** The transaction of this thread, or null. */
    @Override
    public JtaTransaction getTransaction() {
        GlobalTransaction transaction = manager.current();
        return transaction == null ? null : JtaTransaction.of(manager, transaction);
    }

    /**
     * For the transactions that this thread begins from now on: so many seconds, or with 0 the
     * manager's own time-out.
     */
    @Override
    public void setTransactionTimeout(int seconds) throws SystemException {
        if (seconds < 0) {
            throw new SystemException("a time-out of " + seconds + " s");
        }
        if (seconds == 0) {
            timeout.remove();
        } else {
            timeout.set(seconds);
        }
    }

    /** Takes the transaction from this thread. Its connections stay its own. */
    @Override
    public Transaction suspend() {
        JtaTransaction transaction = getTransaction();
        manager.associate(null);
        return transaction;
    }

    @Override
    public void resume(Transaction transaction) throws InvalidTransactionException {
        if (manager.current() != null) {
            throw new IllegalStateException("this thread has " + manager.current() + ": suspend it first");
        }
        if (!(transaction instanceof JtaTransaction resumed && resumed.isOf(manager))) {
            throw new InvalidTransactionException("no transaction of this manager: " + transaction);
        }
        if (resumed.inner().isEnded()) {
            throw new InvalidTransactionException(transaction + " is over");
        }
        manager.associate(resumed.inner());
    }

    private JtaTransaction required() {
        JtaTransaction transaction = getTransaction();
        if (transaction == null) {
            throw new IllegalStateException("this thread has no transaction: begin one");
        }
        return transaction;
    }

    static SystemException system(Fault fault) {
        return Fault.caused(new SystemException(fault.getMessage()), fault);
    }

    static int status(Outcome outcome) {
        return switch (outcome) {
            case ACTIVE -> Status.STATUS_ACTIVE;
            case MARKED_ROLLBACK -> Status.STATUS_MARKED_ROLLBACK;
            case PREPARING -> Status.STATUS_PREPARING;
            case COMMITTING -> Status.STATUS_COMMITTING;
            case ROLLING_BACK -> Status.STATUS_ROLLING_BACK;
            case COMMITTED -> Status.STATUS_COMMITTED;
            case ROLLED_BACK -> Status.STATUS_ROLLEDBACK;
            case UNKNOWN -> Status.STATUS_UNKNOWN;
        };
    }
}
