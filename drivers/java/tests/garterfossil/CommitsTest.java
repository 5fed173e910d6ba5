package garterfossil;

import static org.junit.Assert.assertEquals;
import static org.junit.Assert.assertFalse;
import static org.junit.Assert.assertNull;
import static org.junit.Assert.assertTrue;

import java.nio.file.Files;
import java.nio.file.Path;
import java.time.Duration;
import java.util.ArrayList;
import java.util.List;
import java.util.Map;
import java.util.concurrent.CountDownLatch;
import org.junit.After;
import org.junit.Before;
import org.junit.Rule;
import org.junit.Test;
import org.junit.rules.TemporaryFolder;

/**
 * Threads whose moves are gathered, while the one that acts for all of them fails: each wakes, and
 * none is told another's reply.
 */
public class CommitsTest {
    private static final OutOfMemoryError NO_MEMORY = new OutOfMemoryError("a test's");

    /** A thread that waits for the reply to a gathered move. */
    private final class Asking extends Thread {
        final String move;
        private volatile String reply;
        private volatile Throwable thrown;

        Asking(String move) {
            this.move = move;
            setDaemon(true);
            start();
        }

        @Override
        public void run() {
            try {
                reply = coordinator.await(coordinator.gather(move));
            } catch (Throwable error) {
                thrown = error;
            }
        }

        /** What it ends in; null where it has its reply. */
        Throwable end() throws InterruptedException {
            join(5000);
            assertFalse("it waits for ever", isAlive());
            return thrown;
        }
    }

    @Rule
    public final TemporaryFolder temporary = new TemporaryFolder();
    private final List<Asking> others = new ArrayList<>();
    private final CountDownLatch mayReply = new CountDownLatch(1);
    private Path folder;
    private StandInCoordinator process;
    private Coordinator coordinator;

    @Before
    public void start() throws Exception {
        folder = temporary.getRoot().toPath();
        coordinator = new Coordinator(words -> process = (StandInCoordinator) StandInCoordinator.of(folder, words),
            List.of("xatm", "serve", "--moves", "--log", "log", "5", "2"), Duration.ofSeconds(20));
        process.before = () -> {
            try {
                mayReply.await();
            } catch (InterruptedException error) {
                // It is ended.
                Thread.currentThread().interrupt();
            }
        };
    }

    @After
    public void stop() {
        mayReply.countDown();
        coordinator.kill("the test is over");
    }

    private static String fate(int number) {
        return "fate " + String.format("%016x%016x", 5, number);
    }

    /** A thread that reads for all, and others that ask meanwhile. */
    private Asking first() throws Exception {
        Asking first = new Asking(fate(0));
        World.eventually(() -> first.getState() == Thread.State.TIMED_WAITING);
        for (int count = 1; count <= 3; count++) {
            Asking other = new Asking(fate(count));
            others.add(other);
            World.eventually(() -> other.getState() == Thread.State.WAITING);
        }
        return first;
    }

    private void isLost(Asking asking) throws Exception {
        Throwable thrown = asking.end();
        assertTrue("it ended in " + thrown, thrown instanceof Fault.Gone);
        assertTrue(thrown.getMessage(), thrown.getMessage().contains("an error of the driver: " + NO_MEMORY));
        assertTrue(coordinator.isGone());
    }

    private void othersAreLost() throws Exception {
        for (Asking other : others) {
            isLost(other);
        }
    }

    private List<String> lines() throws Exception {
        return Files.readAllLines(folder.resolve("requests"));
    }

    @Test
    public void movesOfOneLine() throws Exception {
        Asking first = first();
        mayReply.countDown();
        assertNull(first.end());
        for (Asking other : others) {
            assertNull(other.end());
            assertEquals("unknown", other.reply);
        }
        assertEquals(List.of(fate(0), fate(1) + ";" + fate(2) + ";" + fate(3)), lines());
    }

    @Test
    public void eachHasItsOwnReply() throws Exception {
        Asking start = new Asking("start 1");
        World.eventually(() -> start.getState() == Thread.State.TIMED_WAITING);
        for (String move : List.of("start 2", "nonsense", fate(1), "start 2")) {
            Asking other = new Asking(move);
            others.add(other);
            World.eventually(() -> other.getState() == Thread.State.WAITING);
        }
        mayReply.countDown();
        assertNull(start.end());
        List<String> replies = new ArrayList<>();
        for (Asking other : others) {
            assertNull(other.end());
            replies.add(other.reply);
        }
        assertEquals(List.of("started next 00000000000000010000000000000002", "error not a move", "unknown", "error not now"), replies);
    }

    @Test
    public void anErrorInTheWriteOfOthers() throws Exception {
        Asking first = first();
        process.writing = Map.entry(fate(1), NO_MEMORY);
        mayReply.countDown();
        othersAreLost();
        assertNull(first.end());
    }

    @Test
    public void anErrorInTheReadOfAReply() throws Exception {
        Asking first = first();
        process.reading = Map.entry("unknown", NO_MEMORY);
        mayReply.countDown();
        isLost(first);
        othersAreLost();
    }

    @Test
    public void theSessionIsOverAtOneOfThem() throws Exception {
        Asking first = first();
        World.eventually(() -> {
            try {
                return lines().size() == 1;
            } catch (Exception error) {
                return false;
            }
        });
        Files.writeString(folder.resolve("stop-at"), fate(2));
        mayReply.countDown();
        assertNull(first.end());
        for (Asking other : others) {
            assertTrue("it ended in " + other.end(), other.end() instanceof Fault.Gone);
        }
    }

    @Test
    public void nobodyWaitsOnceTheSessionIsOver() throws Exception {
        Asking first = first();
        coordinator.failed(NO_MEMORY);
        othersAreLost();
        isLost(first);
        isLost(new Asking(fate(4)));
    }

    @Test
    public void moreMovesThanMayBeWithoutAReply() throws Exception {
        mayReply.countDown();
        List<Coordinator.Reply> posted = new ArrayList<>();
        for (int count = 0; count < 3000; count++) {
            posted.add(coordinator.post(fate(count)));
            if (count % 3 == 0) {
                others.add(new Asking(fate(count)));
            }
        }
        for (Coordinator.Reply reply : posted) {
            assertEquals("unknown", coordinator.await(reply));
        }
        for (Asking other : others) {
            assertNull(other.end());
        }
    }
}
