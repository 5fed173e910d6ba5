package garterfossil;

import java.io.IOException;
import java.nio.file.Files;
import java.nio.file.Path;
import java.nio.file.StandardCopyOption;
import java.time.Duration;
import java.util.ArrayList;
import java.util.List;
import java.util.concurrent.CountDownLatch;
import java.util.concurrent.TimeUnit;
import java.util.concurrent.atomic.AtomicBoolean;
import java.util.function.BooleanSupplier;
import org.junit.rules.ExternalResource;
import org.junit.rules.TemporaryFolder;

/** Two stand-ins for databases, a stand-in for the coordinator, and a manager over them. */
final class World extends ExternalResource {
    final StandInResource a = new StandInResource("a"), b = new StandInResource("b");
    private final TemporaryFolder temporary = new TemporaryFolder();
    private final List<Manager> managers = new ArrayList<>();
    Path folder;
    Manager manager;
    /** The process that was started last. */
    volatile Process coordinator;

    @Override
    protected void before() throws Throwable {
        temporary.create();
        folder = temporary.getRoot().toPath();
        manager = builder().start();
        managers.add(manager);
    }

    Manager.Builder builder() {
        return Manager.over(folder.resolve("log")).starter(words -> coordinator = StandInCoordinator.of(folder, words)).threads(4)
            .patience(Duration.ofSeconds(8)).grace(Duration.ofMillis(200)).resource(a).resource(b);
    }

    @Override
    protected void after() {
        managers.forEach(Manager::close);
        temporary.delete();
    }

    /** The identifier of a branch of the manager, at its first resource. */
    BranchXid own(long incarnation, long sequence) {
        return BranchXid.of(manager.name(), String.format("%016x%016x", incarnation, sequence), 1, 0);
    }

    GlobalTransaction begin() throws Fault {
        return manager.begin(Duration.ofSeconds(20));
    }

    /** A transaction with a branch at each of them. */
    GlobalTransaction overBoth() throws Fault {
        GlobalTransaction transaction = begin();
        transaction.enlist(a);
        transaction.enlist(b);
        return transaction;
    }

    /** The same on the coordinator's thread 1, which fails at its next move that begins so. */
    GlobalTransaction overBothStopping(String move) throws Exception {
        // The threads go round.
        GlobalTransaction transaction = begin();
        transaction.enlist(a);
        while (a.branches.keySet().stream().noneMatch(xid -> xid.toString().contains(":00000001"))) {
            transaction.rollback();
            transaction = begin();
            transaction.enlist(a);
        }
        put("stop-at", move);
        transaction.enlist(b);
        return transaction;
    }

    /**
     * A transaction whose connection to a resource is lost as it is prepared: so that resource is
     * recovered.
     */
    void loseOneAt(StandInResource resource) throws Exception {
        GlobalTransaction transaction = overBoth();
        resource.answer("prepare", StandInResource.LOST_BEFORE);
        org.junit.Assert.assertThrows(Fault.RolledBack.class, transaction::commit);
    }

    /** The coordinator ends at this move. */
    void dieAt(String moment) throws IOException {
        put("die-at", moment);
    }

    /** Writes a file of the stand-in's folder, which never finds it empty. */
    void put(String name, String text) throws IOException {
        Path made = Files.writeString(folder.resolve(name + ".new"), text);
        Files.move(made, folder.resolve(name), StandardCopyOption.ATOMIC_MOVE);
    }

    List<String> requests() throws IOException {
        return Files.readAllLines(folder.resolve("requests"));
    }

    List<String> rows() {
        try {
            return Files.readAllLines(folder.resolve("rows"));
        } catch (IOException error) {
            throw new java.io.UncheckedIOException(error);
        }
    }

    /** What fails once, by an error of the Java machine. */
    static Runnable failingOnce() {
        AtomicBoolean isDone = new AtomicBoolean();
        return () -> {
            if (isDone.compareAndSet(false, true)) {
                throw new OutOfMemoryError("a test's");
            }
        };
    }

    static void await(CountDownLatch latch) {
        try {
            if (!latch.await(20, TimeUnit.SECONDS)) {
                throw new AssertionError("it doesn't come");
            }
        } catch (InterruptedException error) {
            throw new AssertionError(error);
        }
    }

    static void eventually(BooleanSupplier condition) throws InterruptedException {
        long until = System.nanoTime() + TimeUnit.SECONDS.toNanos(15);
        while (!condition.getAsBoolean()) {
            if (System.nanoTime() > until) {
                throw new AssertionError("it doesn't come");
            }
            Thread.sleep(20);
        }
    }
}
