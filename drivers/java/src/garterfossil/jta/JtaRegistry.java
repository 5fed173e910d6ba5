package garterfossil.jta;

import garterfossil.GlobalTransaction;
import garterfossil.Manager;
import garterfossil.Outcome;
import java.util.Objects;
import javax.transaction.Status;
import javax.transaction.Synchronization;
import javax.transaction.TransactionSynchronizationRegistry;

/** JTA's TransactionSynchronizationRegistry (JTA 1.2, section 3.8). */
public final class JtaRegistry implements TransactionSynchronizationRegistry {
    private final Manager manager;

    /** That of a manager. */
    public JtaRegistry(Manager manager) {
        this.manager = manager;
    }

    @Override
    public Object getTransactionKey() {
        return manager.current();
    }

    @Override
    public void putResource(Object key, Object value) {
        required().keep(Objects.requireNonNull(key, "no key"), value);
    }

    @Override
    public Object getResource(Object key) {
        return required().thing(Objects.requireNonNull(key, "no key"));
    }

    @Override
    public void registerInterposedSynchronization(Synchronization synchronization) {
        JtaTransaction.register(required(), synchronization, true);
    }

    @Override
    public int getTransactionStatus() {
        GlobalTransaction transaction = manager.current();
        return transaction == null ? Status.STATUS_NO_TRANSACTION : JtaTransactionManager.status(transaction.outcome());
    }

    @Override
    public void setRollbackOnly() {
        required().setRollbackOnly("setRollbackOnly was called");
    }

    @Override
    public boolean getRollbackOnly() {
        Outcome outcome = required().outcome();
        return outcome == Outcome.MARKED_ROLLBACK || outcome == Outcome.ROLLING_BACK || outcome == Outcome.ROLLED_BACK;
    }

    private GlobalTransaction required() {
        GlobalTransaction transaction = manager.current();
        if (transaction == null) {
            throw new IllegalStateException("this thread has no transaction");
        }
        return transaction;
    }
}
