package garterfossil;

import static garterfossil.StandInResource.LOST_AFTER;
import static garterfossil.StandInResource.LOST_BEFORE;
import static org.junit.Assert.assertEquals;
import static org.junit.Assert.assertTrue;

import java.io.IOException;
import java.io.UncheckedIOException;
import java.nio.file.Files;
import java.time.Duration;
import java.util.ArrayList;
import java.util.Collections;
import java.util.List;
import java.util.Map;
import java.util.Random;
import java.util.Set;
import java.util.concurrent.ConcurrentHashMap;
import java.util.stream.Collectors;
import org.junit.Rule;
import org.junit.Test;

/**
 * Transactions by chance on several threads, while connections are lost, resources say no, time is
 * up and the coordinator ends: what a program is told is so, and no move is refused. With {@code
 * -Dxatm=PROGRAM} and {@code -Dseconds=60} over the program itself, and for longer.
 */
public class ChanceTest {
    private static final int THREADS = 6;
    private static final Map<String, List<Integer>> ANSWERS = Map.of("start", List.of(LOST_BEFORE, LOST_AFTER),
        "end", List.of(LOST_BEFORE, LOST_AFTER, 100, 106), "prepare", List.of(LOST_BEFORE, LOST_AFTER, 100, 107),
        "commit TMONEPHASE", List.of(LOST_BEFORE, LOST_AFTER, 102), "commit", List.of(LOST_BEFORE, LOST_AFTER, 4),
        "rollback", List.of(LOST_BEFORE, LOST_AFTER, 100), "recover", List.of(LOST_BEFORE));
    private static final List<String> MOMENTS = List.of("join", "tell", "decided", "decided", "decided", "commit", "rollback", "end");

    @Rule
    public final World world = new World();
    private final String program = System.getProperty("xatm");
    private final List<StandInResource> resources = List.of(world.a, world.b);
    // All transactions, each with the resources at which it has branches.
    private final Map<GlobalTransaction, Set<StandInResource>> all = new ConcurrentHashMap<>();
    private volatile Process coordinator;
    private volatile long until;

    private Manager started() throws Fault {
        Manager.Builder builder = program == null ? world.builder() : Manager.over(world.folder.resolve("real")).program(program)
            .threads(4).patience(Duration.ofSeconds(8)).grace(Duration.ofMillis(200)).resource(world.a).resource(world.b);
        return builder.starter(words -> {
            Process made = program == null ? StandInCoordinator.of(world.folder, words) : Coordinator.start(words);
            coordinator = words.contains("serve") ? made : coordinator;
            return made;
        }).start();
    }

    @Test
    public void whatIsToldIsSo() throws Exception {
        world.manager.close();
        try (Logged logged = new Logged()) {
            try (Manager manager = started()) {
                until = System.nanoTime() + Integer.getInteger("seconds", 4) * 1_000_000_000L;
                List<Thread> threads = new ArrayList<>(List.of(new Thread(this::disturb)));
                for (int count = 0; count < THREADS; count++) {
                    threads.add(new Thread(() -> work(manager)));
                }
                threads.forEach(Thread::start);
                for (Thread thread : threads) {
                    thread.join();
                }
            }
            resources.forEach(resource -> ANSWERS.keySet().forEach(call -> resource.answer(call, 0)));
            Files.deleteIfExists(world.folder.resolve("die-at"));
            try (Manager last = started()) {
                World.eventually(() -> last.owing() == 0 && resources.stream().allMatch(it -> it.branches.isEmpty()));
            }
            List<String> wrong = logged.said.stream().filter(it -> it.contains("an error of the driver") || it.contains("memory failed")).toList();
            assertTrue(wrong.toString(), wrong.isEmpty());
        }
        seeTold();
    }

    private void seeTold() {
        Map<StandInResource, Set<String>> committed = resources.stream().collect(Collectors.toMap(it -> it, it -> it.committed.stream()
            .map(BranchXid::transaction).collect(Collectors.toSet())));
        all.forEach((transaction, at) -> {
            long count = at.stream().filter(it -> committed.get(it).contains(transaction.gtrid())).count();
            boolean isRight = switch (transaction.outcome()) {
                case COMMITTED -> count == at.size();
                case ROLLED_BACK -> count == 0;
                default -> count == 0 || count == at.size();
            };
            assertTrue(transaction.told() + ", and it is committed at " + count, isRight);
        });
        assertEquals(Set.of(), all.keySet().stream().filter(it -> !it.outcome().isOver()).collect(Collectors.toSet()));
    }

    /** Loses connections, has calls answered otherwise, and ends the coordinator. */
    private void disturb() {
        Random random = new Random();
        List<String> calls = List.copyOf(ANSWERS.keySet());
        while (System.nanoTime() < until) {
            StandInResource resource = resources.get(random.nextInt(resources.size()));
            int dice = random.nextInt(200);
            if (dice < 1) {
                coordinator.destroyForcibly();
            } else if (dice < 6) {
                endAt(MOMENTS.get(random.nextInt(MOMENTS.size())));
            } else if (dice < 10) {
                resource.restart();
            } else {
                String call = calls.get(random.nextInt(calls.size()));
                resource.answer(call, ANSWERS.get(call).get(random.nextInt(ANSWERS.get(call).size())));
            }
            pause(random.nextInt(30));
        }
    }

    /** The stand-in ends at such a move; {@code decided} is a decision that it doesn't tell. */
    private void endAt(String moment) {
        try {
            world.dieAt(moment);
        } catch (IOException error) {
            throw new UncheckedIOException(error);
        }
    }

    private void work(Manager manager) {
        Random random = new Random();
        while (System.nanoTime() < until) {
            try {
                transact(manager, random);
            } catch (Fault fault) {
                pause(1);
            }
        }
    }

    private void transact(Manager manager, Random random) throws Fault {
        boolean isShort = random.nextInt(10) == 0;
        GlobalTransaction transaction = manager.begin(Duration.ofMillis(isShort ? 20 : 5000));
        Set<StandInResource> at = ConcurrentHashMap.newKeySet();
        all.put(transaction, at);
        List<StandInResource> order = new ArrayList<>(resources);
        Collections.shuffle(order, random);
        try {
            for (StandInResource resource : order.subList(0, random.nextInt(3))) {
                transaction.enlist(resource);
                at.add(resource);
                pause(isShort ? random.nextInt(30) : 0);
            }
            if (random.nextInt(12) == 0) {
                transaction.setRollbackOnly("by chance");
            }
            if (random.nextInt(5) > 0) {
                transaction.commit();
            }
        } finally {
            if (!transaction.isEnded()) {
                transaction.rollback();
            }
        }
    }

    private static void pause(int millis) {
        try {
            Thread.sleep(millis);
        } catch (InterruptedException error) {
            throw new AssertionError(error);
        }
    }
}
