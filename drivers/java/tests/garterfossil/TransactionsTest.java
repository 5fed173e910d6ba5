package garterfossil;

import static org.junit.Assert.assertEquals;
import static org.junit.Assert.assertFalse;
import static org.junit.Assert.assertThrows;
import static org.junit.Assert.assertTrue;

import java.time.Duration;
import java.util.ArrayList;
import java.util.HashSet;
import java.util.List;
import java.util.concurrent.CountDownLatch;
import java.util.concurrent.CyclicBarrier;
import java.util.concurrent.ExecutorService;
import java.util.concurrent.Executors;
import java.util.concurrent.Future;
import java.util.concurrent.FutureTask;
import java.util.concurrent.TimeUnit;
import java.util.concurrent.atomic.AtomicInteger;
import java.util.stream.Collectors;
import javax.transaction.xa.XAException;
import javax.transaction.xa.XAResource;
import org.junit.Rule;
import org.junit.Test;

/** How transactions end, by what the resources answer. */
public class TransactionsTest {
    @Rule
    public final World world = new World();

    private List<String> callsOf(StandInResource resource) {
        return resource.calls.stream().filter(call -> !call.equals("recover") && !call.equals("endOthers")).collect(Collectors.toList());
    }

    @Test
    public void commitsInTwoPhases() throws Exception {
        world.overBoth().commit();
        assertEquals(List.of("start", "end", "prepare", "commit"), callsOf(world.a));
        assertEquals(List.of("start", "end", "prepare", "commit"), callsOf(world.b));
    }

    @Test
    public void commitsOneBranchInOnePhase() throws Exception {
        GlobalTransaction transaction = world.begin();
        transaction.enlist(world.a);
        transaction.commit();
        assertEquals(List.of("start", "end", "commit TMONEPHASE"), callsOf(world.a));
    }

    @Test
    public void commitsWithoutBranchesOrCoordinator() throws Exception {
        world.begin().commit();
        assertFalse(world.folder.resolve("requests").toFile().exists() && world.requests().stream().anyMatch(it -> it.startsWith("start")));
    }

    @Test
    public void rollsBackWhereOneVotesNo() throws Exception {
        GlobalTransaction transaction = world.overBoth();
        world.b.answer("prepare", XAException.XA_RBDEADLOCK);
        Fault.RolledBack error = assertThrows(Fault.RolledBack.class, transaction::commit);
        assertTrue(error.getMessage(), error.getMessage().contains("b voted XA_RBDEADLOCK"));
        assertEquals(1, world.a.rolledBack.size());
        assertTrue(world.a.branches.isEmpty() && world.b.branches.isEmpty());
    }

    @Test
    public void rollsBackWhereXaEndSaysSo() throws Exception {
        GlobalTransaction transaction = world.overBoth();
        world.a.answer("end", XAException.XA_RBTIMEOUT);
        assertThrows(Fault.RolledBack.class, transaction::commit);
        assertEquals(1, world.b.rolledBack.size());
        assertTrue(world.requests().contains("tell 1 106 0"));
    }

    @Test
    public void endsAndPreparesByOneRequest() throws Exception {
        world.b.isPreparedAtEnd = true;
        world.overBoth().commit();
        assertEquals(List.of("start", "end", "prepare", "commit"), callsOf(world.a));
        assertEquals(List.of("start", "end and prepare", "commit"), callsOf(world.b));
        GlobalTransaction refused = world.overBoth();
        world.b.answer("end and prepare", XAException.XA_RBDEADLOCK);
        Fault.RolledBack error = assertThrows(Fault.RolledBack.class, refused::commit);
        assertTrue(error.getMessage(), error.getMessage().contains("b voted XA_RBDEADLOCK"));
        GlobalTransaction alone = world.begin();
        alone.enlist(world.b);
        alone.commit();
        world.overBoth().rollback();
        assertEquals(List.of("start", "end", "commit TMONEPHASE", "start", "end", "rollback"), callsOf(world.b).subList(5, 11));
        assertTrue(world.a.branches.isEmpty() && world.b.branches.isEmpty());
    }

    @Test
    public void connectionsLostInEndAndPrepare() throws Exception {
        world.b.isPreparedAtEnd = true;
        for (int when : new int[] {StandInResource.LOST_BEFORE, StandInResource.LOST_AFTER}) {
            GlobalTransaction transaction = world.overBoth();
            world.b.answer("end and prepare", when);
            assertThrows(Fault.RolledBack.class, transaction::commit);
            World.eventually(() -> world.manager.owing() == 0);
            assertTrue(world.a.branches.isEmpty() && world.b.branches.isEmpty());
        }
        assertTrue(world.a.committed.isEmpty() && world.b.committed.isEmpty());
    }

    @Test
    public void aReadOnlyVoteIsNotCommitted() throws Exception {
        GlobalTransaction transaction = world.overBoth();
        world.a.answer("prepare", XAResource.XA_RDONLY);
        transaction.commit();
        assertEquals(List.of("start", "end", "prepare"), callsOf(world.a));
        assertEquals(1, world.b.committed.size());
    }

    @Test
    public void rowsLeaveTheLog() throws Exception {
        for (int count = 0; count < 8; count++) {
            world.overBoth().commit();
        }
        World.eventually(() -> world.rows().isEmpty());
    }

    @Test
    public void workThatFailedIsEndedByTmfail() throws Exception {
        GlobalTransaction transaction = world.begin();
        XAResource brought = world.a.connect().xaResource();
        transaction.enlist(world.a, brought);
        assertTrue(transaction.delist(brought, true));
        transaction.rollback();
        assertEquals(List.of("start", "end TMFAIL", "rollback"), callsOf(world.a));
        assertTrue(world.a.branches.isEmpty() && world.requests().contains("rollback 1"));
    }

    @Test
    public void rollbackTakesXaRollbackCodes() throws Exception {
        GlobalTransaction transaction = world.overBoth();
        world.a.answer("rollback", XAException.XA_RBOTHER);
        transaction.rollback();
        assertEquals(Outcome.ROLLED_BACK, transaction.outcome());
        assertEquals(0, world.manager.owing());
    }

    @Test
    public void aBranchThatIsGoneIsAHazard() throws Exception {
        GlobalTransaction transaction = world.overBoth();
        world.a.answer("commit", XAException.XAER_NOTA);
        world.a.before = () -> {
            if (world.a.calls.contains("prepare")) {
                world.a.branches.clear();
            }
        };
        Fault.Heuristic error = assertThrows(Fault.Heuristic.class, transaction::commit);
        assertTrue(error.isHazard);
        assertTrue(callsOf(world.a).contains("forget"));
    }

    @Test
    public void allRolledBackByThemselves() throws Exception {
        GlobalTransaction transaction = world.overBoth();
        world.a.answer("commit", XAException.XA_HEURRB);
        world.b.answer("commit", XAException.XA_RBINTEGRITY);
        assertTrue(assertThrows(Fault.Heuristic.class, transaction::commit).isAllRolledBack);
    }

    @Test
    public void aCommitThatIsPutOffIsMadeAgain() throws Exception {
        GlobalTransaction transaction = world.overBoth();
        world.a.answer("commit", XAException.XA_RETRY);
        transaction.commit();
        // By a thread of the manager's: the program has its answer.
        World.eventually(() -> world.a.committed.size() == 1 && world.manager.owing() == 0);
    }

    @Test
    public void connectionsLostBeforeTheDecision() throws Exception {
        for (String call : List.of("end", "prepare")) {
            for (int when : new int[] {StandInResource.LOST_BEFORE, StandInResource.LOST_AFTER}) {
                GlobalTransaction transaction = world.overBoth();
                world.b.answer(call, when);
                assertThrows(call, Fault.RolledBack.class, transaction::commit);
                World.eventually(() -> world.manager.owing() == 0);
                assertTrue(call, world.a.branches.isEmpty() && world.b.branches.isEmpty());
            }
        }
        assertTrue(world.a.committed.isEmpty() && world.b.committed.isEmpty());
    }

    @Test
    public void connectionsLostInTheCommit() throws Exception {
        for (int when : new int[] {StandInResource.LOST_BEFORE, StandInResource.LOST_AFTER}) {
            GlobalTransaction transaction = world.overBoth();
            world.b.answer("commit", when);
            transaction.commit();
            World.eventually(() -> world.manager.owing() == 0);
        }
        assertEquals(2, world.a.committed.size());
        assertEquals(2, world.b.committed.size());
    }

    @Test
    public void aConnectionLostInACommitInOnePhase() throws Exception {
        GlobalTransaction transaction = world.begin();
        transaction.enlist(world.a);
        world.a.answer("commit TMONEPHASE", StandInResource.LOST_AFTER);
        assertThrows(Fault.OutcomeUnknown.class, transaction::commit);
        assertEquals(Outcome.UNKNOWN, transaction.outcome());
        assertEquals(1, world.a.committed.size());
    }

    @Test
    public void noCallBeforeItIsTold() throws Exception {
        // The coordinator has read by then that the branches began, and how they voted.
        world.a.before = () -> {
            String last = world.a.calls.isEmpty() ? "" : world.a.calls.get(world.a.calls.size() - 1);
            if (last.equals("start") || last.equals("prepare")) {
                assertTrue(isRead(last.equals("start") ? "join 1 0 1" : "tell 1 0 0"));
            }
        };
        world.overBoth().commit();
        assertEquals(1, world.a.committed.size());
    }

    @Test
    public void aTransferIsThreeLines() throws Exception {
        world.overBoth().commit();
        GlobalTransaction next = world.begin();
        for (int count = 0; count < 8; count++) {
            // The threads go round: the last line of the first is written with what others ask.
            next.enlist(world.a);
            next.commit();
            next = world.begin();
        }
        List<String> moves = world.requests().stream().filter(it -> it.matches("\\w+ 1( .*)?")).collect(Collectors.toList());
        int first = moves.indexOf("start 1");
        assertEquals(List.of("start 1", "join 1 0 1", "tell 1 0 0", "tell 1 0 0"), moves.subList(first, first + 4));
    }

    @Test
    public void anEndOfOneBranchWaitsOnce() throws Exception {
        for (String move : List.of("commit", "rollback")) {
            GlobalTransaction transaction = world.begin();
            transaction.enlist(world.a);
            if (move.equals("commit")) {
                transaction.commit();
            } else {
                transaction.rollback();
            }
        }
        // What ends it is written before the reply to `join` has come.
        for (String move : List.of("commit", "rollback")) {
            List<String> written = ((StandInCoordinator) world.coordinator).written;
            assertTrue(written.toString(), written.stream().anyMatch(it -> it.matches("(?s)(.*\n)?join (\\d+) 0\n" + move + " \\2\n.*")));
        }
    }

    private boolean isRead(String beginning) {
        try {
            return world.requests().stream().anyMatch(it -> it.startsWith(beginning));
        } catch (java.io.IOException error) {
            return false;
        }
    }

    @Test
    public void aCoordinatorThatFailsAtAMove() throws Exception {
        // It has no memory for it. The next session ends what is prepared.
        for (String move : List.of("join 1", "tell 1 0 0", "tell 1 106 0", "rollback 1")) {
            GlobalTransaction transaction = world.overBothStopping(move);
            if (move.equals("tell 1 106 0")) {
                world.a.answer("end", XAException.XA_RBTIMEOUT);
            }
            if (move.equals("rollback 1")) {
                transaction.setRollbackOnly("a test");
            }
            assertThrows(move, Fault.RolledBack.class, transaction::commit);
            World.eventually(() -> world.a.branches.isEmpty() && world.b.branches.isEmpty() && world.manager.owing() == 0);
            assertTrue(move, world.a.committed.isEmpty() && world.b.committed.isEmpty());
        }
        // What was told to commit is committed.
        GlobalTransaction transaction = world.overBothStopping("tell 1 0 lost");
        world.b.answer("commit", StandInResource.LOST_BEFORE);
        transaction.commit();
        World.eventually(() -> world.b.committed.size() == 1 && world.manager.owing() == 0);
        assertEquals(1, world.a.committed.size());
    }

    @Test
    public void aCoordinatorThatKnowsNothingOfABranch() throws Exception {
        world.put("wrong-at", "join 1\njoined");
        GlobalTransaction alone = world.begin();
        alone.enlist(world.a);
        // It has no branch, and so would be committed at once.
        Fault.RolledBack error = assertThrows(Fault.RolledBack.class, alone::commit);
        assertTrue(error.getMessage(), error.getMessage().contains("an error of the driver"));
        world.put("wrong-at", "join 1\nprepare 0");
        assertThrows(Fault.RolledBack.class, () -> world.overBoth().commit());
        world.put("wrong-at", "rollback 1\nrolled-back next 00000000000000030000000000000002");
        world.overBoth().rollback();
        World.eventually(() -> world.a.branches.isEmpty() && world.b.branches.isEmpty() && world.manager.owing() == 0);
        assertTrue(world.a.committed.isEmpty() && world.b.committed.isEmpty());
    }

    @Test
    public void repliesThatAreNone() throws Exception {
        for (String reply : List.of("started", "started next", "started next 12", "", "started 0 x")) {
            world.put("wrong-at", "start\n" + reply + " ");
            assertThrows(reply, Fault.Gone.class, () -> world.begin().enlist(world.a));
        }
        // Before the decision it is rolled back, whatever the reply was to be.
        for (String reply : List.of("prepare 0 x", "prepare 0 99999999999", "prepare 0 7", "prepare 0 1 next", "prepare 0 1 mixed 0", " ",
            "nothing")) {
            world.put("wrong-at", "join\n" + reply);
            GlobalTransaction transaction = world.overBoth();
            assertThrows(reply, Fault.RolledBack.class, transaction::commit);
        }
        // Behind votes the next session says what was decided.
        for (String reply : List.of("commit 0 x", "comit 0 1", " ", "unknown", "forget 0 1", "prepare 0 1")) {
            world.put("wrong-at", "tell\n" + reply);
            GlobalTransaction transaction = world.overBoth();
            assertThrows(reply, Fault.RolledBack.class, transaction::commit);
        }
        World.eventually(() -> world.a.branches.isEmpty() && world.b.branches.isEmpty() && world.manager.owing() == 0);
        assertTrue(world.a.committed.isEmpty() && world.b.committed.isEmpty());
    }

    @Test
    public void anOutcomeOfABranchThatIsNone() throws Exception {
        for (String reply : List.of("rolled-back 100 7", "rolled-back owed 7", "rolled-back mixed 7 5", "rolled-back mixed 0")) {
            world.put("wrong-at", "tell\n" + reply);
            GlobalTransaction transaction = world.overBoth();
            world.b.answer("prepare", 100);
            Fault.RolledBack error = assertThrows(reply, Fault.RolledBack.class, transaction::commit);
            assertTrue(error.getMessage(), error.getMessage().contains("an error of the driver"));
        }
        World.eventually(() -> world.a.branches.isEmpty() && world.b.branches.isEmpty() && world.manager.owing() == 0);
    }

    @Test
    public void aFateThatIsNone() throws Exception {
        world.dieAt("tell");
        world.put("wrong-at", "fate\nnothing");
        GlobalTransaction unknown = world.overBoth();
        // The very next session would have known.
        assertThrows(Fault.OutcomeUnknown.class, unknown::commit);
        world.dieAt("decided");
        world.put("wrong-at", "fate\ncommitted owed x");
        GlobalTransaction decided = world.overBoth();
        decided.commit();
        assertEquals(Outcome.COMMITTED, decided.outcome());
        World.eventually(() -> world.a.committed.size() == 1 && world.b.committed.size() == 1);
    }

    @Test
    public void aCoordinatorThatTellsOtherwiseThanTheProgramWasTold() throws Exception {
        world.put("wrong-at", "tell 1 0\nrolled-back 100 0 next 00000000000000010000000000000009");
        GlobalTransaction first = world.begin();
        first.enlist(world.a);
        first.commit();
        assertThrows(Fault.Gone.class, () -> {
            for (int count = 0; count < 8; count++) {
                GlobalTransaction next = world.begin();
                next.enlist(world.a);
                next.commit();
            }
        });
        // The next session goes on.
        world.overBoth().commit();
        assertEquals(2, world.manager.session().incarnation);
    }

    @Test
    public void resourcesAreCalledAtTheSameTime() throws Exception {
        for (String last : List.of("end", "prepare")) {
            GlobalTransaction transaction = world.overBoth();
            CyclicBarrier both = new CyclicBarrier(2);
            world.a.before = () -> meetBehind(last, world.a, both);
            world.b.before = () -> meetBehind(last, world.b, both);
            transaction.commit();
        }
        assertEquals(2, world.a.committed.size());
    }

    /** The call after that of this name is made once the other resource is called, too. */
    private void meetBehind(String last, StandInResource resource, CyclicBarrier both) {
        if (resource.calls.get(resource.calls.size() - 1).equals(last)) {
            try {
                both.await(5, TimeUnit.SECONDS);
            } catch (Exception error) {
                throw new AssertionError(error);
            }
        }
    }

    @Test
    public void aRollbackWhileTheVotesWait() throws Exception {
        world.overBoth().rollback();
        assertEquals(List.of("start", "end", "rollback"), callsOf(world.a));
        assertTrue(world.requests().containsAll(List.of("join 1 0 1", "rollback 1")));
        world.a.answer("end", StandInResource.LOST_AFTER);
        world.overBoth().rollback();
        World.eventually(() -> world.manager.owing() == 0);
        assertTrue(world.a.branches.isEmpty() && world.b.branches.isEmpty());
    }

    @Test
    public void aTransactionThatTakesTooLong() throws Exception {
        GlobalTransaction transaction = world.manager.begin(java.time.Duration.ofMillis(200));
        transaction.enlist(world.a);
        World.eventually(() -> transaction.outcome() == Outcome.ROLLED_BACK);
        assertEquals(1, world.a.rolledBack.size());
        assertTrue(transaction.fault(), transaction.fault().contains("time-out"));
    }

    @Test
    public void decidesTogetherWhatIsAskedForMeanwhile() throws Exception {
        world.put("slow", "");
        ExecutorService pool = Executors.newFixedThreadPool(4);
        try {
            assertEquals(0, rolledBackBy(pool));
            assertEquals(40, world.a.committed.size());
            assertTrue(world.requests().stream().anyMatch(it -> it.contains(";tell ")));
            // At one of these lines the coordinator fails: all on it are told alike, and so is it.
            world.put("stop-at", "tell 2 0 0");
            int rolledBack = rolledBackBy(pool);
            assertTrue("rolled back: " + rolledBack, rolledBack <= 4);
            World.eventually(() -> world.manager.owing() == 0 && world.a.branches.isEmpty() && world.b.branches.isEmpty());
            assertEquals(80 - rolledBack, world.a.committed.size());
            assertEquals(new HashSet<>(transactions(world.a)), new HashSet<>(transactions(world.b)));
            assertEquals(80 - rolledBack, world.b.committed.size());
        } finally {
            pool.shutdown();
        }
    }

    /** 4 threads commit 10 transactions each: how many are rolled back. */
    private int rolledBackBy(ExecutorService pool) throws Exception {
        AtomicInteger rolledBack = new AtomicInteger();
        List<Future<?>> threads = new ArrayList<>();
        for (int thread = 0; thread < 4; thread++) {
            threads.add(pool.submit(() -> {
                for (int count = 0; count < 10; count++) {
                    committed(rolledBack);
                }
                return null;
            }));
        }
        for (Future<?> thread : threads) {
            thread.get(60, TimeUnit.SECONDS);
        }
        return rolledBack.get();
    }

    /** Commits one transaction, if the coordinator doesn't end in its work. */
    private void committed(AtomicInteger rolledBack) throws Fault {
        GlobalTransaction transaction = world.begin();
        try {
            transaction.enlist(world.a);
            transaction.enlist(world.b);
            transaction.commit();
        } catch (Fault.RolledBack error) {
            rolledBack.incrementAndGet();
        } catch (Fault.Gone | Fault.Unavailable error) {
            transaction.rollback();
            rolledBack.incrementAndGet();
        }
    }

    private static List<String> transactions(StandInResource resource) {
        return resource.committed.stream().map(BranchXid::transaction).collect(Collectors.toList());
    }

    @Test
    public void moreThanMayRunAtOnce() throws Exception {
        for (int count = 0; count < 4; count++) {
            world.begin().enlist(world.a);
        }
        GlobalTransaction fifth = world.manager.begin(java.time.Duration.ofMillis(300));
        Fault.Unavailable error = assertThrows(Fault.Unavailable.class, () -> fifth.enlist(world.a));
        assertTrue(error.getMessage(), error.getMessage().contains("more threads"));
    }

    @Test
    public void aConnectionThatCantBeGivenBack() throws Exception {
        // There are places for 8 connections and 4 transactions.
        for (int count = 1; count <= 10; count++) {
            GlobalTransaction transaction = world.overBoth();
            world.a.beforeReset = World.failingOnce();
            assertThrows(OutOfMemoryError.class, transaction::commit);
            assertEquals(Outcome.COMMITTED, settledOf(transaction));
            assertEquals(count, world.b.committed.size());
        }
        world.overBoth().commit();
    }

    /** As another thread sees it. */
    private static Outcome settledOf(GlobalTransaction transaction) throws Exception {
        FutureTask<Outcome> asking = new FutureTask<>(transaction::settled);
        Thread thread = new Thread(asking);
        thread.setDaemon(true);
        thread.start();
        return asking.get(5, TimeUnit.SECONDS);
    }

    @Test
    public void anEndWaitsForWhatIsUnderWay() throws Exception {
        world.manager.close();
        world.manager = world.builder().grace(Duration.ofSeconds(10)).start();
        GlobalTransaction committing = world.overBoth(), working = world.overBoth();
        CountDownLatch inPrepare = new CountDownLatch(1), mayGoOn = new CountDownLatch(1);
        world.a.before = () -> {
            if (Thread.currentThread().getName().equals("commits") && world.a.calls.contains("end")) {
                inPrepare.countDown();
                World.await(mayGoOn);
            }
        };
        FutureTask<Void> commit = new FutureTask<>(() -> {
            committing.commit();
            return null;
        });
        new Thread(commit, "commits").start();
        World.await(inPrepare);
        Thread closing = new Thread(world.manager::close);
        closing.start();
        World.eventually(() -> isRefused());
        working.commit();
        mayGoOn.countDown();
        commit.get(5, TimeUnit.SECONDS);
        closing.join();
        assertTrue(world.a.branches.isEmpty() && world.b.branches.isEmpty());
        assertEquals(2, world.b.committed.size());
    }

    private boolean isRefused() {
        try {
            world.begin().rollback();
            return false;
        } catch (Fault error) {
            return true;
        }
    }

    @Test
    public void anEndRollsBackWhatIsOpen() throws Exception {
        GlobalTransaction open = world.overBoth();
        world.manager.close();
        assertTrue(world.a.branches.isEmpty() && world.b.branches.isEmpty());
        assertEquals(1, world.a.rolledBack.size());
        Fault.RolledBack error = assertThrows(Fault.RolledBack.class, open::commit);
        assertTrue(error.getMessage(), error.getMessage().contains("the manager is closed"));
    }

    @Test
    public void aConnectionThatCantBeMade() throws Exception {
        GlobalTransaction transaction = world.begin();
        world.a.beforeConnect = World.failingOnce();
        assertThrows(OutOfMemoryError.class, () -> transaction.enlist(world.a));
        transaction.rollback();
        World.eventually(() -> world.manager.owing() == 0);
        world.overBoth().commit();
    }
}
