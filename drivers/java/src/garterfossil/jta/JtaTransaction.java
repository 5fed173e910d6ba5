package garterfossil.jta;

import garterfossil.Completion;
import garterfossil.Fault;
import garterfossil.GlobalTransaction;
import garterfossil.Manager;
import garterfossil.Outcome;
import javax.transaction.HeuristicMixedException;
import javax.transaction.HeuristicRollbackException;
import javax.transaction.RollbackException;
import javax.transaction.Synchronization;
import javax.transaction.SystemException;
import javax.transaction.Transaction;
import javax.transaction.xa.XAException;
import javax.transaction.xa.XAResource;

/** JTA's Transaction (JTA 1.2, section 3.3). */
public final class JtaTransaction implements Transaction {
    private static final Object KEY = new Object();

    private final Manager manager;
    private final GlobalTransaction inner;

    private JtaTransaction(Manager manager, GlobalTransaction inner) {
        this.manager = manager;
        this.inner = inner;
    }

    /** The one of a transaction: always the same. */
    static JtaTransaction of(Manager manager, GlobalTransaction inner) {
        synchronized (inner) {
            JtaTransaction found = (JtaTransaction) inner.thing(KEY);
            if (found == null) {
                found = new JtaTransaction(manager, inner);
                inner.keep(KEY, found);
            }
            return found;
        }
    }

    GlobalTransaction inner() {
        return inner;
    }

    boolean isOf(Manager other) {
        return manager == other;
    }

    @Override
    public void commit() throws RollbackException, HeuristicMixedException, HeuristicRollbackException, SystemException {
        requireNotEnded();
        GlobalTransaction before = manager.current();
        // What a synchronization does before the end belongs to the transaction.
        manager.associate(inner);
        try {
            inner.commit();
        } catch (Fault.RolledBack fault) {
            throw Fault.caused(new RollbackException(fault.getMessage()), fault.getCause() == null ? fault : fault.getCause());
        } catch (Fault.Heuristic fault) {
            if (fault.isAllRolledBack) {
                throw Fault.caused(new HeuristicRollbackException(fault.getMessage()), fault);
            }
            throw Fault.caused(new HeuristicMixedException(fault.getMessage()), fault);
        } catch (Fault fault) {
            throw system(fault);
        } finally {
            GlobalTransaction after = manager.current();
            // What a synchronization begins after the end stays.
            if (after == inner || after == null) {
                manager.associate(before == inner ? null : before);
            }
        }
    }

    @Override
    public void rollback() throws SystemException {
        requireNotEnded();
        try {
            inner.rollback();
        } catch (Fault fault) {
            throw system(fault);
        }
    }

    private void requireNotEnded() {
        if (inner.isEnded()) {
            throw new IllegalStateException(inner + " is " + inner.outcome() + ": it is over");
        }
    }

    @Override
    public void setRollbackOnly() {
        requireOpen();
        inner.setRollbackOnly("setRollbackOnly was called");
    }

    @Override
    public int getStatus() {
        return JtaTransactionManager.status(inner.outcome());
    }

    @Override
    public void registerSynchronization(Synchronization synchronization) throws RollbackException, SystemException {
        requireUnmarked();
        register(inner, synchronization, false);
    }

    static void register(GlobalTransaction transaction, Synchronization synchronization, boolean isInterposed) {
        try {
            transaction.register(new Completion() {
                @Override
                public void before() {
                    synchronization.beforeCompletion();
                }

                @Override
                public void after(Outcome outcome) {
                    synchronization.afterCompletion(JtaTransactionManager.status(outcome));
                }
            }, isInterposed);
        } catch (Fault.Unavailable fault) {
            throw new IllegalStateException(fault.getMessage(), fault);
        }
    }

    /**
     * The XAResource takes part. It belongs to a resource of the manager, which is known by its
     * name.
     */
    @Override
    public boolean enlistResource(XAResource xaResource) throws RollbackException, SystemException {
        requireUnmarked();
        try {
            inner.enlist(manager.ownerOf(xaResource), xaResource);
            return true;
        } catch (Fault fault) {
            throw JtaTransactionManager.system(fault);
        }
    }

    /**
     * The work on the XAResource is over, well (TMSUCCESS) or not (TMFAIL). Its branch ends with
     * the transaction, and until then it may be enlisted again. TMSUSPEND isn't supported: this XA
     * has no xa_start that goes on with a branch (TMRESUME).
     */
    @Override
    public boolean delistResource(XAResource xaResource, int flag) throws SystemException {
        requireOpen();
        if (flag != XAResource.TMSUCCESS && flag != XAResource.TMFAIL) {
            SystemException error = new SystemException("delistResource with flag " + flag
                + ": TMSUCCESS and TMFAIL are supported. TMSUSPEND isn't; suspend the transaction, whose resources stay its own");
            error.errorCode = XAException.XAER_INVAL;
            throw error;
        }
        return inner.delist(xaResource, flag == XAResource.TMFAIL);
    }

    private void requireOpen() {
        if (!inner.outcome().isOpen()) {
            throw new IllegalStateException(inner + " is " + inner.outcome() + ": it is over, or about to be");
        }
    }

    private void requireUnmarked() throws RollbackException {
        requireOpen();
        if (inner.outcome() == Outcome.MARKED_ROLLBACK) {
            throw new RollbackException(inner + " can only be rolled back: " + inner.fault());
        }
    }

    /** What JTA has of it: what isn't allowed now is an exception of the program's own. */
    private static SystemException system(Fault fault) {
        if (fault instanceof Fault.Unavailable) {
            throw new IllegalStateException(fault.getMessage(), fault);
        }
        return JtaTransactionManager.system(fault);
    }

    @Override
    public String toString() {
        return inner.toString();
    }
}
