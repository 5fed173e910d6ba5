package garterfossil;

import static org.junit.Assert.assertEquals;
import static org.junit.Assert.assertNull;
import static org.junit.Assert.assertSame;
import static org.junit.Assert.assertThrows;
import static org.junit.Assert.assertTrue;

import garterfossil.jta.JtaRegistry;
import garterfossil.jta.JtaTransaction;
import garterfossil.jta.JtaTransactionManager;
import java.util.ArrayList;
import java.util.List;
import javax.transaction.HeuristicMixedException;
import javax.transaction.HeuristicRollbackException;
import javax.transaction.InvalidTransactionException;
import javax.transaction.NotSupportedException;
import javax.transaction.RollbackException;
import javax.transaction.Status;
import javax.transaction.Synchronization;
import javax.transaction.SystemException;
import javax.transaction.Transaction;
import javax.transaction.xa.XAException;
import javax.transaction.xa.XAResource;
import org.junit.Before;
import org.junit.Rule;
import org.junit.Test;

/** The interfaces of JTA 1.2, by its chapter 3. */
public class JtaTest {
    @Rule
    public final World world = new World();
    private JtaTransactionManager jta;
    private JtaRegistry registry;
    private final List<String> seen = new ArrayList<>();

    @Before
    public void make() {
        jta = new JtaTransactionManager(world.manager);
        registry = new JtaRegistry(world.manager);
    }

    private Synchronization noting(String name) {
        return new Synchronization() {
            @Override
            public void beforeCompletion() {
                seen.add(name + " before, " + jta.getStatus());
            }

            @Override
            public void afterCompletion(int status) {
                seen.add(name + " after, " + status);
            }
        };
    }

    private void enlistBoth() throws Exception {
        world.manager.current().enlist(world.a);
        world.manager.current().enlist(world.b);
    }

    @Test
    public void aThreadHasOneTransaction() throws Exception {
        assertEquals(Status.STATUS_NO_TRANSACTION, jta.getStatus());
        assertThrows(IllegalStateException.class, jta::commit);
        assertThrows(IllegalStateException.class, jta::rollback);
        assertThrows(IllegalStateException.class, jta::setRollbackOnly);
        jta.begin();
        assertEquals(Status.STATUS_ACTIVE, jta.getStatus());
        NotSupportedException error = assertThrows(NotSupportedException.class, jta::begin);
        assertTrue(error.getMessage(), error.getMessage().contains("finally"));
        jta.commit();
        assertEquals(Status.STATUS_NO_TRANSACTION, jta.getStatus());
    }

    @Test
    public void rollbackOnly() throws Exception {
        jta.begin();
        enlistBoth();
        jta.setRollbackOnly();
        assertEquals(Status.STATUS_MARKED_ROLLBACK, jta.getStatus());
        JtaTransaction transaction = jta.getTransaction();
        assertThrows(RollbackException.class, () -> transaction.registerSynchronization(noting("late")));
        assertThrows(RollbackException.class, () -> transaction.enlistResource(world.a.connect().xaResource()));
        assertThrows(RollbackException.class, jta::commit);
        assertEquals(Status.STATUS_NO_TRANSACTION, jta.getStatus());
        assertEquals(Status.STATUS_ROLLEDBACK, transaction.getStatus());
        assertThrows(IllegalStateException.class, transaction::setRollbackOnly);
    }

    @Test
    public void synchronizationsAreCalledInOrder() throws Exception {
        jta.begin();
        enlistBoth();
        registry.registerInterposedSynchronization(noting("interposed"));
        jta.getTransaction().registerSynchronization(noting("ordinary"));
        jta.commit();
        assertEquals(List.of("ordinary before, 0", "interposed before, 0", "interposed after, 3", "ordinary after, 3"), seen);
    }

    @Test
    public void synchronizationsOfARollback() throws Exception {
        jta.begin();
        jta.getTransaction().registerSynchronization(noting("it"));
        jta.rollback();
        assertEquals(List.of("it after, 4"), seen);
    }

    @Test
    public void aSynchronizationThatFails() throws Exception {
        jta.begin();
        enlistBoth();
        jta.getTransaction().registerSynchronization(new Synchronization() {
            @Override
            public void beforeCompletion() {
                throw new IllegalArgumentException("no");
            }

            @Override
            public void afterCompletion(int status) {
                seen.add("after, " + status);
            }
        });
        assertThrows(RollbackException.class, jta::commit);
        assertEquals(List.of("after, 4"), seen);
        assertEquals(1, world.a.rolledBack.size());
    }

    @Test
    public void suspendAndResume() throws Exception {
        jta.begin();
        enlistBoth();
        Transaction outer = jta.suspend();
        assertNull(jta.getTransaction());
        jta.begin();
        enlistBoth();
        assertThrows(IllegalStateException.class, () -> jta.resume(outer));
        jta.commit();
        jta.resume(outer);
        assertSame(outer, jta.getTransaction());
        jta.rollback();
        assertEquals(1, world.a.committed.size());
        assertEquals(1, world.a.rolledBack.size());
        assertThrows(InvalidTransactionException.class, () -> jta.resume(null));
    }

    @Test
    public void aTimeOut() throws Exception {
        assertThrows(SystemException.class, () -> jta.setTransactionTimeout(-1));
        jta.setTransactionTimeout(1);
        jta.begin();
        enlistBoth();
        JtaTransaction transaction = jta.getTransaction();
        World.eventually(() -> transaction.getStatus() == Status.STATUS_ROLLEDBACK);
        assertThrows(NotSupportedException.class, jta::begin);
        assertThrows(RollbackException.class, jta::commit);
        jta.setTransactionTimeout(0);
        jta.begin();
        jta.commit();
    }

    /** A transaction over both, with synchronizations, that its time-out has rolled back. */
    private JtaTransaction timedOut() throws Exception {
        seen.clear();
        jta.setTransactionTimeout(1);
        jta.begin();
        jta.setTransactionTimeout(0);
        enlistBoth();
        registry.registerInterposedSynchronization(noting("interposed"));
        jta.getTransaction().registerSynchronization(noting("ordinary"));
        JtaTransaction transaction = jta.getTransaction();
        World.eventually(() -> transaction.getStatus() == Status.STATUS_ROLLEDBACK);
        return transaction;
    }

    @Test
    public void synchronizationsOfATimeOut() throws Exception {
        List<String> wanted = List.of("interposed after, 4", "ordinary after, 4");
        JtaTransaction transaction = timedOut();
        assertThrows(RollbackException.class, jta::commit);
        assertEquals(wanted, seen);
        assertThrows(IllegalStateException.class, transaction::commit);
        timedOut();
        jta.rollback();
        assertEquals(wanted, seen);
        // And if its program asks for neither.
        timedOut();
        World.eventually(() -> seen.size() == 2);
        assertThrows(RollbackException.class, jta::commit);
        assertEquals(wanted, seen);
    }

    @Test
    public void aTimeOutInASynchronization() throws Exception {
        jta.setTransactionTimeout(1);
        jta.begin();
        enlistBoth();
        JtaTransaction transaction = jta.getTransaction();
        transaction.registerSynchronization(new Synchronization() {
            @Override
            public void beforeCompletion() {
                try {
                    World.eventually(() -> transaction.getStatus() == Status.STATUS_ROLLEDBACK);
                } catch (InterruptedException error) {
                    throw new AssertionError(error);
                }
            }

            @Override
            public void afterCompletion(int status) {
                seen.add("after, " + status);
            }
        });
        assertThrows(RollbackException.class, jta::commit);
        assertEquals(List.of("after, 4"), seen);
    }

    /** A synchronization that fails by an error of the Java machine, at one of its moments. */
    private static Synchronization failing(boolean isBefore) {
        return new Synchronization() {
            @Override
            public void beforeCompletion() {
                if (isBefore) {
                    throw new StackOverflowError("before");
                }
            }

            @Override
            public void afterCompletion(int status) {
                if (!isBefore) {
                    throw new StackOverflowError("after");
                }
            }
        };
    }

    @Test
    public void errorsOfSynchronizations() throws Exception {
        jta.begin();
        enlistBoth();
        jta.getTransaction().registerSynchronization(failing(true));
        jta.getTransaction().registerSynchronization(noting("it"));
        RollbackException error = assertThrows(RollbackException.class, jta::commit);
        assertEquals(StackOverflowError.class, error.getCause().getClass());
        assertEquals(List.of("it after, 4"), seen);
        assertEquals(1, world.a.rolledBack.size());
        seen.clear();
        jta.begin();
        enlistBoth();
        registry.registerInterposedSynchronization(failing(false));
        jta.getTransaction().registerSynchronization(noting("it"));
        jta.commit();
        assertEquals(List.of("it before, 0", "it after, 3"), seen);
        assertEquals(1, world.a.committed.size());
    }

    @Test
    public void aSynchronizationBeginsAnother() throws Exception {
        jta.begin();
        jta.getTransaction().registerSynchronization(new Synchronization() {
            @Override
            public void beforeCompletion() {
            }

            @Override
            public void afterCompletion(int status) {
                try {
                    jta.begin();
                    seen.add("begun, " + jta.getStatus());
                    jta.commit();
                } catch (Exception error) {
                    seen.add(error.toString());
                }
            }
        });
        jta.commit();
        assertEquals(List.of("begun, 0"), seen);
        assertEquals(Status.STATUS_NO_TRANSACTION, jta.getStatus());
    }

    @Test
    public void oneThatIsOver() throws Exception {
        jta.begin();
        Transaction transaction = jta.suspend();
        transaction.rollback();
        assertThrows(IllegalStateException.class, transaction::rollback);
        assertThrows(IllegalStateException.class, transaction::commit);
        assertThrows(InvalidTransactionException.class, () -> jta.resume(transaction));
        jta.begin();
        JtaTransaction mine = jta.getTransaction();
        Thread other = new Thread(() -> {
            try {
                mine.commit();
            } catch (Exception error) {
                throw new AssertionError(error);
            }
        });
        other.start();
        other.join();
        assertEquals(Status.STATUS_NO_TRANSACTION, jta.getStatus());
        jta.begin();
        jta.getTransaction().commit();
        jta.begin();
        jta.rollback();
    }

    @Test
    public void whyItIsRolledBack() throws Exception {
        jta.begin();
        jta.setRollbackOnly();
        Throwable marked = assertThrows(RollbackException.class, jta::commit).getCause();
        assertTrue(marked.toString(), marked.getMessage().contains(Thread.currentThread().getName()));
        assertTrue(List.of(marked.getStackTrace()).stream().anyMatch(it -> it.getMethodName().equals("whyItIsRolledBack")));
        // A flush that calls setRollbackOnly, and then throws what went wrong.
        jta.begin();
        jta.getTransaction().registerSynchronization(new Synchronization() {
            @Override
            public void beforeCompletion() {
                registry.setRollbackOnly();
                throw new IllegalArgumentException("a key is there twice");
            }

            @Override
            public void afterCompletion(int status) {
            }
        });
        RollbackException error = assertThrows(RollbackException.class, jta::commit);
        assertEquals(IllegalArgumentException.class, error.getCause().getClass());
        assertTrue(error.getMessage(), error.getMessage().contains("a key is there twice"));
    }

    @Test
    public void aThreadThatIsInterrupted() throws Exception {
        jta.begin();
        enlistBoth();
        Thread.currentThread().interrupt();
        jta.commit();
        jta.begin();
        enlistBoth();
        jta.commit();
        assertTrue(Thread.interrupted());
        assertEquals(2, world.a.committed.size());
        for (int count = 0; count < 4; count++) {
            world.begin().enlist(world.a);
        }
        Thread.currentThread().interrupt();
        GlobalTransaction fifth = world.begin();
        Fault.Unavailable error = assertThrows(Fault.Unavailable.class, () -> fifth.enlist(world.a));
        assertTrue(Thread.interrupted());
        assertTrue(error.getMessage(), error.getMessage().contains("interrupted"));
    }

    @Test
    public void heuristicEnds() throws Exception {
        jta.begin();
        enlistBoth();
        world.a.answer("commit", XAException.XA_HEURMIX);
        assertThrows(HeuristicMixedException.class, jta::commit);
        jta.begin();
        enlistBoth();
        world.a.answer("commit", XAException.XA_HEURRB);
        world.b.answer("commit", XAException.XA_HEURRB);
        assertThrows(HeuristicRollbackException.class, jta::commit);
        jta.begin();
        enlistBoth();
        world.a.answer("commit", XAException.XA_HEURCOM);
        jta.commit();
    }

    @Test
    public void resourcesOfOtherPools() throws Exception {
        XAResource own = new Owned(world.a.connect().xaResource());
        jta.begin();
        assertTrue(jta.getTransaction().enlistResource(own));
        assertTrue(jta.getTransaction().delistResource(own, XAResource.TMSUCCESS));
        assertTrue(jta.getTransaction().enlistResource(own));
        SystemException error = assertThrows(SystemException.class, () -> jta.getTransaction().delistResource(own, XAResource.TMSUSPEND));
        assertEquals(XAException.XAER_INVAL, error.errorCode);
        SystemException unknown = assertThrows(SystemException.class, () -> jta.getTransaction().enlistResource(world.b.connect().xaResource()));
        assertTrue(unknown.getMessage(), unknown.getMessage().contains("belongs to none of the resources"));
        jta.commit();
        assertEquals(1, world.a.committed.size());
    }

    @Test
    public void aTimeOutOverAnotherPoolsConnection() throws Exception {
        // No gate keeps the program from it: after xa_rollback each statement would be committed
        // by itself.
        StandInResource.StandInLink link = (StandInResource.StandInLink) world.a.connect();
        Owned own = new Owned(link);
        jta.setTransactionTimeout(1);
        jta.begin();
        JtaTransaction transaction = jta.getTransaction();
        transaction.enlistResource(own);
        World.eventually(() -> transaction.getStatus() == Status.STATUS_ROLLEDBACK && world.manager.owing() == 0);
        assertTrue(own.isCut);
        assertTrue(!world.a.callsByLink.contains(link.number() + " rollback") && world.a.branches.isEmpty());
        assertThrows(RollbackException.class, jta::commit);
        // And if the coordinator ends.
        Owned other = new Owned(world.a.connect().xaResource());
        jta.begin();
        jta.getTransaction().enlistResource(other);
        world.coordinator.destroy();
        World.eventually(() -> other.isCut);
        assertThrows(RollbackException.class, jta::commit);
    }

    /** An XAResource of a pool that isn't the manager's, which says whose it is. */
    private final class Owned implements OwnedXaResource {
        private final XAResource inner;
        private volatile boolean isCut;

        Owned(XAResource inner) {
            this.inner = inner;
        }

        @Override
        public Resource owner() {
            return world.a;
        }

        @Override
        public boolean cut() {
            isCut = true;
            ((StandInResource.StandInLink) inner).close();
            return true;
        }

        @Override
        public void start(javax.transaction.xa.Xid xid, int flags) throws XAException {
            inner.start(xid, flags);
        }

        @Override
        public void end(javax.transaction.xa.Xid xid, int flags) throws XAException {
            inner.end(xid, flags);
        }

        @Override
        public int prepare(javax.transaction.xa.Xid xid) throws XAException {
            return inner.prepare(xid);
        }

        @Override
        public void commit(javax.transaction.xa.Xid xid, boolean isOnePhase) throws XAException {
            inner.commit(xid, isOnePhase);
        }

        @Override
        public void rollback(javax.transaction.xa.Xid xid) throws XAException {
            inner.rollback(xid);
        }

        @Override
        public void forget(javax.transaction.xa.Xid xid) throws XAException {
            inner.forget(xid);
        }

        @Override
        public javax.transaction.xa.Xid[] recover(int flags) throws XAException {
            return inner.recover(flags);
        }

        @Override
        public boolean isSameRM(XAResource other) {
            return false;
        }

        @Override
        public int getTransactionTimeout() {
            return 0;
        }

        @Override
        public boolean setTransactionTimeout(int seconds) {
            return false;
        }
    }

    @Test
    public void theRegistry() throws Exception {
        assertNull(registry.getTransactionKey());
        assertEquals(Status.STATUS_NO_TRANSACTION, registry.getTransactionStatus());
        assertThrows(IllegalStateException.class, () -> registry.getResource("key"));
        jta.begin();
        registry.putResource("key", "value");
        assertEquals("value", registry.getResource("key"));
        registry.setRollbackOnly();
        assertTrue(registry.getRollbackOnly());
        jta.rollback();
    }
}
