import bitronix.tm.BitronixTransactionManager;
import bitronix.tm.TransactionManagerServices;
import bitronix.tm.resource.ehcache.EhCacheXAResourceProducer;
import java.io.File;
import java.util.Arrays;
import java.util.concurrent.ConcurrentHashMap;
import java.util.concurrent.CountDownLatch;
import java.util.concurrent.atomic.AtomicInteger;
import javax.transaction.Transaction;
import javax.transaction.xa.XAResource;
import javax.transaction.xa.Xid;

/**
 * How many transactions a second the Bitronix Transaction Manager commits in two phases, at two resources in memory.
 *
 * <p>Usage: Bitronix JOURNAL THREADS TRANSACTIONS FOLDER. The journal is null (there is none) or disk (it lies in the
 * folder, and each decision is forced to the disk, which is Bitronix's own setting). The transactions are run twice: cold,
 * and then warm, by compiled code.
 */
public class Bitronix {
    /** A resource that votes yes. */
    static class Memory implements XAResource {
        enum State { STARTED, ENDED, PREPARED }

        final ConcurrentHashMap<String, State> states = new ConcurrentHashMap<>();

        static String key(Xid xid) {
            return Arrays.toString(xid.getGlobalTransactionId()) + Arrays.toString(xid.getBranchQualifier());
        }

        public void start(Xid xid, int flags) { states.put(key(xid), State.STARTED); }

        public void end(Xid xid, int flags) { states.put(key(xid), State.ENDED); }

        public int prepare(Xid xid) {
            states.put(key(xid), State.PREPARED);
            return XA_OK;
        }

        public void commit(Xid xid, boolean onePhase) { states.remove(key(xid)); }

        public void rollback(Xid xid) { states.remove(key(xid)); }

        public void forget(Xid xid) { }

        public Xid[] recover(int flags) { return new Xid[0]; }

        public boolean isSameRM(XAResource other) { return other == this; }

        public boolean setTransactionTimeout(int seconds) { return true; }

        public int getTransactionTimeout() { return 0; }
    }

    static final Memory FIRST = new Memory(), SECOND = new Memory();

    static void commitOne(BitronixTransactionManager manager) throws Exception {
        manager.begin();
        Transaction transaction = manager.getTransaction();
        transaction.enlistResource(FIRST);
        transaction.enlistResource(SECOND);
        transaction.delistResource(FIRST, XAResource.TMSUCCESS);
        transaction.delistResource(SECOND, XAResource.TMSUCCESS);
        manager.commit();
    }

    /** Runs the transactions on threads, and gives how many they are a second. */
    static double rate(BitronixTransactionManager manager, int threads, int transactions) throws Exception {
        AtomicInteger taken = new AtomicInteger();
        CountDownLatch done = new CountDownLatch(threads);
        long start = System.nanoTime();
        for (int thread = 0; thread < threads; thread++) {
            new Thread(() -> {
                try {
                    while (taken.getAndIncrement() < transactions) commitOne(manager);
                } catch (Exception failure) {
                    failure.printStackTrace();
                    System.exit(1);
                }
                done.countDown();
            }).start();
        }
        done.await();
        return transactions * 1e9 / (System.nanoTime() - start);
    }

    public static void main(String[] words) throws Exception {
        int threads = Integer.parseInt(words[1]), transactions = Integer.parseInt(words[2]);
        File folder = new File(words[3]);
        TransactionManagerServices.getConfiguration().setServerId("bench").setJournal(words[0])
            .setLogPart1Filename(new File(folder, "first.tlog").getPath())
            .setLogPart2Filename(new File(folder, "second.tlog").getPath());
        EhCacheXAResourceProducer.registerXAResource("first", FIRST);
        EhCacheXAResourceProducer.registerXAResource("second", SECOND);
        BitronixTransactionManager manager = TransactionManagerServices.getTransactionManager();
        for (String how : new String[] {"cold", "warm"}) {
            System.out.printf("%s %.0f%n", how, rate(manager, threads, transactions));
        }
        if (!FIRST.states.isEmpty() || !SECOND.states.isEmpty()) {
            System.err.println("Bitronix: a branch was left open");
            System.exit(1);
        }
        manager.shutdown();
        System.exit(0);
    }
}
