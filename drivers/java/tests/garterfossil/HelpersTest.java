package garterfossil;

import static org.junit.Assert.assertEquals;

import java.time.Duration;
import java.util.ArrayList;
import java.util.List;
import java.util.Set;
import java.util.concurrent.ConcurrentHashMap;
import java.util.concurrent.CountDownLatch;
import java.util.concurrent.TimeUnit;
import org.junit.Test;

/** Threads that make calls for others. */
public class HelpersTest {
    @Test
    public void noThreadForAHelper() throws Exception {
        List<Thread> threads = new ArrayList<>();
        Helpers helpers = new Helpers(2, work -> {
            if (!threads.isEmpty()) {
                throw new OutOfMemoryError("unable to create native thread");
            }
            threads.add(new Thread(work));
            return threads.get(0);
        });
        ResourceManager rm = new ResourceManager(0, new StandInResource("a"));
        List<Branch> branches = new ArrayList<>();
        for (int count = 0; count < 3; count++) {
            BranchXid xid = BranchXid.of("", "0".repeat(32), 1, count);
            branches.add(new Branch(xid, rm, rm.borrow(Duration.ofSeconds(1)), null, () -> Duration.ZERO));
        }
        CountDownLatch othersMade = new CountDownLatch(2);
        Set<Branch> made = ConcurrentHashMap.newKeySet();
        helpers.each(branches, false, 0, branch -> {
            // The one helper's call takes longer than those of the thread that asks.
            if (Thread.currentThread() == threads.get(0)) {
                await(othersMade);
            }
            made.add(branch);
            othersMade.countDown();
        });
        assertEquals(Set.copyOf(branches), made);
        helpers.stop();
    }

    private static void await(CountDownLatch latch) {
        try {
            latch.await(5, TimeUnit.SECONDS);
        } catch (InterruptedException error) {
            throw new AssertionError(error);
        }
    }
}
