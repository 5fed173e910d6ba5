package garterfossil;

import static org.junit.Assert.assertEquals;
import static org.junit.Assert.assertFalse;
import static org.junit.Assert.assertThrows;
import static org.junit.Assert.assertTrue;

import java.io.IOException;
import java.io.UncheckedIOException;
import java.time.Duration;
import java.util.List;
import java.util.Map;
import java.util.concurrent.CountDownLatch;
import org.junit.After;
import org.junit.Before;
import org.junit.Rule;
import org.junit.Test;
import org.junit.rules.TemporaryFolder;

/**
 * One thread reads, or writes, for all: where it fails, none of the others waits for ever, or takes
 * what is another's reply.
 */
public class CoordinatorTest {
    private static final OutOfMemoryError NO_MEMORY = new OutOfMemoryError("a test's");

    /** A thread that waits for a reply. */
    private final class Waiting extends Thread {
        private final Coordinator.Reply reply;
        private volatile Throwable thrown;

        Waiting(Coordinator.Reply reply, State state) throws InterruptedException {
            this.reply = reply;
            setDaemon(true);
            start();
            World.eventually(() -> getState() == state);
        }

        @Override
        public void run() {
            try {
                coordinator.await(reply);
            } catch (Throwable error) {
                thrown = error;
            }
        }

        void isLost() throws InterruptedException {
            join(5000);
            assertFalse("it waits for ever", isAlive());
            assertTrue("it ended in " + thrown, thrown instanceof Fault.Gone);
            assertTrue(thrown.getMessage(), thrown.getMessage().contains("an error of the driver: " + NO_MEMORY));
        }
    }

    @Rule
    public final TemporaryFolder temporary = new TemporaryFolder();
    private StandInCoordinator process;
    private Coordinator coordinator;

    @Before
    public void start() throws Exception {
        coordinator = new Coordinator(words -> process = (StandInCoordinator) StandInCoordinator.of(temporary.getRoot().toPath(), words),
            List.of("xatm", "serve", "--moves", "--log", "log", "5", "2"), Duration.ofSeconds(20));
    }

    @After
    public void stop() {
        coordinator.kill("the test is over");
    }

    @Test
    public void anErrorOfTheThreadThatReads() throws Exception {
        CountDownLatch mayReply = new CountDownLatch(1);
        process.before = () -> {
            try {
                mayReply.await();
            } catch (InterruptedException error) {
                // It is ended.
                Thread.currentThread().interrupt();
            }
        };
        Coordinator.Reply first = coordinator.post("start 3"), second = coordinator.post("start 1"), third = coordinator.post("start 2");
        Waiting reads = new Waiting(second, Thread.State.TIMED_WAITING);
        Waiting sleeps = new Waiting(first, Thread.State.WAITING), sleepsToo = new Waiting(third, Thread.State.WAITING);
        process.reading = Map.entry("started", NO_MEMORY);
        mayReply.countDown();
        sleeps.isLost();
        sleepsToo.isLost();
        reads.isLost();
    }

    @Test
    public void anErrorOfTheThreadThatWrites() throws Exception {
        Coordinator.Reply first = coordinator.post("start 3"), second = coordinator.post("start 1");
        process.writing = Map.entry("start", NO_MEMORY);
        Waiting writes = new Waiting(second, Thread.State.TERMINATED);
        new Waiting(first, Thread.State.TERMINATED).isLost();
        writes.isLost();
    }

    @Test
    public void whatItRepliedBeforeItEndedIsHeard() throws Exception {
        Coordinator.Reply first = coordinator.post("start 3");
        coordinator.flush();
        World.eventually(() -> {
            try {
                return process.getInputStream().available() > 0;
            } catch (IOException error) {
                throw new UncheckedIOException(error);
            }
        });
        process.destroy();
        // This can't be written any more.
        assertThrows(Fault.Gone.class, () -> coordinator.ask("start 1"));
        assertTrue(coordinator.await(first).startsWith("started next "));
    }

    @Test
    public void anErrorInItsEnd() {
        process.ending = NO_MEMORY;
        assertThrows(OutOfMemoryError.class, () -> coordinator.kill("a reason"));
        assertTrue(coordinator.isGone());
        assertEquals("the coordinator is gone: a reason", coordinator.lost().getMessage());
    }

    @Test
    public void whatItRepliedBeforeItEndedIsRead() throws Exception {
        Process[] ended = new Process[1];
        coordinator = new Coordinator(words -> ended[0] = Coordinator.start(words),
            List.of("sh", "-c", "echo restarted 1 0 0; read move; echo committed"), Duration.ofSeconds(20));
        Coordinator.Reply first = coordinator.post("tell 1 0 0"), second = coordinator.post("tell 2 0 0");
        coordinator.flush();
        ended[0].waitFor();
        Coordinator.Reply last = coordinator.post("tell 3 0 0");
        assertThrows(Fault.Gone.class, () -> coordinator.await(last));
        assertEquals("committed", coordinator.await(first));
        assertThrows(Fault.Gone.class, () -> coordinator.await(second));
    }
}
