package garterfossil;

import static org.junit.Assert.assertEquals;
import static org.junit.Assert.assertFalse;
import static org.junit.Assert.assertThrows;
import static org.junit.Assert.assertTrue;

import java.time.Duration;
import java.util.concurrent.CountDownLatch;
import org.junit.Test;

/** Connections that are made while others are lost. */
public class ResourceManagerTest {
    private final StandInResource resource = new StandInResource("a");
    private final ResourceManager rm = new ResourceManager(0, resource);

    @Test
    public void oneThatWasBegunInTheSessionBefore() throws Exception {
        CountDownLatch mayGoOn = new CountDownLatch(1);
        resource.beforeConnect = () -> World.await(mayGoOn);
        assertThrows(Fault.Lost.class, () -> rm.connect(Duration.ofMillis(200)));
        assertEquals(1, resource.calls.size());
        // The session ends: what it had under way has to be gone before the next one looks at the
        // resource.
        rm.startAnew();
        mayGoOn.countDown();
        rm.connect(Duration.ofSeconds(5));
        assertEquals(2, resource.calls.stream().filter("endOthers"::equals).count());
    }

    @Test
    public void oneThatIsBeingEndedIsThere() throws Exception {
        rm.discard(rm.connect(Duration.ofSeconds(5)));
        CountDownLatch mayGoOn = new CountDownLatch(1);
        resource.beforeEnd = () -> World.await(mayGoOn);
        assertThrows(Fault.Lost.class, () -> rm.connect(Duration.ofMillis(200)));
        // Else a recovery would go on, and what runs on the one that was lost be done after it.
        assertTrue(rm.hasStrays());
        mayGoOn.countDown();
        rm.connect(Duration.ofSeconds(5));
        assertFalse(rm.hasStrays());
        assertEquals(2, resource.calls.stream().filter("endOthers"::equals).count());
    }
}
