package garterfossil;

import static org.junit.Assert.assertEquals;
import static org.junit.Assert.assertFalse;
import static org.junit.Assert.assertNotEquals;
import static org.junit.Assert.assertThrows;
import static org.junit.Assert.assertTrue;

import java.io.IOException;
import java.io.UncheckedIOException;
import java.nio.file.Files;
import java.nio.file.Path;
import java.time.Duration;
import java.util.List;
import java.util.Map;
import java.util.Set;
import java.util.concurrent.CountDownLatch;
import java.util.concurrent.FutureTask;
import java.util.concurrent.TimeUnit;
import java.util.concurrent.atomic.AtomicInteger;
import java.util.concurrent.atomic.AtomicReference;
import javax.transaction.xa.XAException;
import org.junit.Rule;
import org.junit.Test;

/** What ends, and what comes after. */
public class RecoveryTest {
    @Rule
    public final World world = new World();

    private void nothingIsLeft() throws Exception {
        World.eventually(() -> world.a.branches.isEmpty() && world.b.branches.isEmpty() && world.manager.owing() == 0);
    }

    @Test
    public void theCoordinatorEndsBeforeTheDecision() throws Exception {
        GlobalTransaction transaction = world.overBoth();
        world.dieAt("tell");
        assertThrows(Fault.RolledBack.class, transaction::commit);
        nothingIsLeft();
        assertTrue(world.a.committed.isEmpty() && world.b.committed.isEmpty());
    }

    @Test
    public void theCoordinatorEndsBeforeItSaysThatItDecided() throws Exception {
        GlobalTransaction transaction = world.overBoth();
        world.dieAt("decided");
        transaction.commit();
        assertEquals(Outcome.COMMITTED, transaction.outcome());
        nothingIsLeft();
        assertEquals(1, world.a.committed.size());
        assertEquals(1, world.b.committed.size());
    }

    /** The session of a standby, over the same log, ends what was decided and removes its row. */
    private void standBy() {
        try {
            List<String> rows = Files.readAllLines(world.folder.resolve("rows"));
            for (StandInResource at : List.of(world.a, world.b)) {
                for (BranchXid xid : List.copyOf(at.branches.keySet())) {
                    assertTrue(xid.toString().contains(rows.get(0).split(" ")[0]));
                    at.branches.remove(xid);
                    at.committed.add(xid);
                }
            }
            world.put("rows", "");
            world.put("incarnation", "3");
        } catch (IOException error) {
            throw new UncheckedIOException(error);
        }
    }

    @Test
    public void aStandbyEndsWhatWasDecidedBeforeTheNextSession() throws Exception {
        world.manager.close();
        AtomicInteger starts = new AtomicInteger();
        try (Manager manager = world.builder().starter(words -> {
            if (!words.get(1).equals("log") && starts.incrementAndGet() == 2) {
                standBy();
            }
            return StandInCoordinator.of(world.folder, words);
        }).start()) {
            GlobalTransaction transaction = manager.begin(Duration.ofSeconds(20));
            transaction.enlist(world.a);
            transaction.enlist(world.b);
            world.dieAt("decided");
            assertThrows(Fault.OutcomeUnknown.class, transaction::commit);
            assertEquals(1, world.a.committed.size());
            assertEquals(1, world.b.committed.size());
        }
    }

    @Test
    public void theCoordinatorEndsInTheWork() throws Exception {
        GlobalTransaction transaction = world.overBoth();
        world.dieAt("start");
        assertThrows(Fault.Gone.class, () -> {
            for (int count = 0; count < 4; count++) {
                world.begin().enlist(world.a);
            }
        });
        world.begin().enlist(world.a);
        assertThrows(Fault.RolledBack.class, transaction::commit);
        assertTrue(world.a.committed.isEmpty() && world.b.committed.isEmpty());
    }

    @Test
    public void theCoordinatorEndsWhileNothingIsAsked() throws Exception {
        world.overBoth().commit();
        world.coordinator.destroy();
        Session session = world.manager.session();
        World.eventually(session.coordinator::isGone);
        world.overBoth().commit();
        assertEquals(2, world.a.committed.size());
    }

    @Test
    public void workOutsideGoesOnWithoutTheCoordinator() throws Exception {
        Borrowed borrowed = world.manager.borrow(world.a);
        Session before = world.manager.session();
        GlobalTransaction transaction = world.begin();
        transaction.enlist(world.a);
        before.coordinator.kill("a test");
        assertThrows(Fault.RolledBack.class, transaction::commit);
        World.eventually(() -> {
            try {
                return world.manager.session() != before;
            } catch (Fault fault) {
                return false;
            }
        });
        assertEquals(Set.of(borrowed.link().number()), world.a.lastKept);
        borrowed.giveBack();
    }

    @Test
    public void theManagerEndsAfterTheDecision() throws Exception {
        world.b.answer("commit", StandInResource.LOST_BEFORE);
        GlobalTransaction transaction = world.overBoth();
        // From the commit on b can't be reached.
        world.b.before = () -> world.b.isDown = world.b.isDown || world.b.calls.contains("prepare");
        Thread committing = new Thread(() -> {
            try {
                transaction.commit();
            } catch (Fault error) {
                throw new AssertionError(error);
            }
        });
        committing.start();
        World.eventually(() -> world.a.committed.size() == 1);
        world.manager.close();
        committing.join();
        world.b.before = () -> { };
        world.b.isDown = false;
        world.manager = world.builder().start();
        nothingIsLeft();
        assertEquals(1, world.b.committed.size());
        world.manager.close();
    }

    @Test
    public void aResourceThatIsDownAtTheStart() throws Exception {
        world.manager.close();
        world.b.isDown = true;
        world.manager = world.builder().start();
        GlobalTransaction transaction = world.manager.begin(Duration.ofSeconds(1));
        assertThrows(Fault.Lost.class, () -> transaction.enlist(world.b));
        transaction.enlist(world.a);
        transaction.commit();
        world.b.isDown = false;
        nothingIsLeft();
        world.overBoth().commit();
        world.manager.close();
    }

    @Test
    public void aRollbackThatTheResourceForgot() throws Exception {
        BranchXid old = world.own(1, 1);
        GlobalTransaction transaction = world.overBoth();
        world.a.answer("prepare", StandInResource.LOST_AFTER);
        assertThrows(Fault.RolledBack.class, transaction::commit);
        nothingIsLeft();
        // It comes back after a crash, as MariaDB's do. The next session ends it.
        world.a.branches.put(old, StandInResource.State.PREPARED);
        world.loseOneAt(world.a);
        nothingIsLeft();
        assertEquals(2, world.manager.session().incarnation);
        world.overBoth().commit();
        // Another is nothing that anybody rolled back: then nothing goes on.
        world.a.branches.put(world.own(2, 1), StandInResource.State.PREPARED);
        Session session = world.manager.session();
        world.loseOneAt(world.a);
        World.eventually(() -> session.whyNot() != null);
        assertThrows(Fault.Unavailable.class, () -> world.begin().enlist(world.a));
        assertEquals(1, world.a.branches.size());
    }

    @Test
    public void aRollbackOfAnEarlierSessionThatTheResourceForgot() throws Exception {
        world.manager.close();
        BranchXid old = world.own(1, 99);
        world.a.branches.put(old, StandInResource.State.PREPARED);
        world.manager = world.builder().start();
        nothingIsLeft();
        Coordinator before = world.manager.up().coordinator;
        // The resource crashes, and is recovered once more in this session.
        world.a.branches.put(old, StandInResource.State.PREPARED);
        world.loseOneAt(world.a);
        nothingIsLeft();
        assertEquals(List.of(old, old), world.a.rolledBack.subList(0, 2));
        assertEquals("the coordinator is gone: what was rolled back at a is there again", before.lost().getMessage());
        world.overBoth().commit();
        world.manager.close();
    }

    @Test
    public void aLogThatIsMissingWhileItIsUsed() throws Exception {
        Files.delete(world.folder.resolve("log"));
        world.dieAt("start");
        assertThrows(Fault.class, () -> {
            for (int count = 0; count < 5; count++) {
                world.begin().enlist(world.a);
            }
        });
        Fault.Unavailable error = assertThrows(Fault.Unavailable.class, () -> world.begin().enlist(world.a));
        assertTrue(error.getMessage(), error.getMessage().contains("missing"));
    }

    @Test
    public void aNewLogLeavesBranchesOfAnOldOne() throws Exception {
        String name = world.manager.name();
        world.a.branches.put(world.own(1, 1), StandInResource.State.PREPARED);
        world.manager.close();
        Files.delete(world.folder.resolve("log"));
        // Also from the second start on.
        for (int count = 0; count < 2; count++) {
            world.manager = world.builder().start();
            assertNotEquals(name, world.manager.name());
            world.manager.close();
        }
        assertEquals(1, world.a.branches.size());
        assertTrue(world.a.rolledBack.isEmpty());
    }

    @Test
    public void anOlderLogBesideBranchesOfALaterSession() throws Exception {
        world.a.branches.put(world.own(4, 1), StandInResource.State.PREPARED);
        world.manager.close();
        // Each start raises the log's incarnation, so that it would pass for a newer one after
        // some.
        for (int count = 0; count < 5; count++) {
            Fault.Unavailable error = assertThrows(Fault.Unavailable.class, () -> world.builder().start());
            assertTrue(error.getMessage(), error.getMessage().contains("isn't that of a"));
        }
        assertEquals(1, world.a.branches.size());
    }

    @Test
    public void anOlderLogOfNoBranches() throws Exception {
        world.manager.close();
        world.builder().start().close();
        world.put("incarnation", "0");
        world.a.branches.put(world.own(1, 1), StandInResource.State.PREPARED);
        for (int count = 0; count < 3; count++) {
            Fault.Unavailable error = assertThrows(Fault.Unavailable.class, () -> world.builder().start());
            assertTrue(error.getMessage(), error.getMessage().contains("is older than it was"));
        }
        assertEquals(1, world.a.branches.size());
        // The right one is back, and somebody has looked.
        world.put("incarnation", "2");
        Path file = world.folder.resolve("log-databases");
        // The line alone is removed, as is said: a comma is left.
        String text = Files.readString(file).replaceFirst("(?m)^ \"shut\".*\n", "");
        assertTrue(text, text.endsWith("],\n}\n"));
        Files.writeString(file, text);
        world.manager = world.builder().start();
        nothingIsLeft();
        world.manager.close();
    }

    private void refusedSinceItIsOver(BranchXid xid) throws Exception {
        for (int count = 0; count < 2; count++) {
            Fault.Unavailable error = assertThrows(Fault.Unavailable.class, () -> world.builder().start());
            assertTrue(error.getMessage(), error.getMessage().contains("lists " + xid + " as prepared, which is over"));
            assertTrue(error.getMessage(), error.getMessage().contains("so by hand: make the call xa_commit of " + xid));
        }
    }

    @Test
    public void aDatabaseThatWasPutBack() throws Exception {
        world.overBoth().commit();
        World.eventually(() -> world.rows().isEmpty());
        world.manager.close();
        BranchXid xid = world.a.committed.get(0);
        world.a.branches.put(xid, StandInResource.State.PREPARED);
        refusedSinceItIsOver(xid);
        assertEquals(Set.of(xid), world.a.branches.keySet());
        assertTrue(world.a.rolledBack.isEmpty());
        // What looks, and what ends a branch by hand, say the same.
        assertTrue(world.builder().status().toString().contains(xid + ": waits for xa_commit"));
        try (ByHand it = world.builder().byHand(xid.toString())) {
            assertEquals("a: make the call xa_commit of " + xid, it.toString());
        }
    }

    @Test
    public void aDatabaseThatWasPutBackSinceADecisionThatNobodyHeard() throws Exception {
        world.dieAt("decided");
        world.overBoth().commit();
        World.eventually(() -> world.rows().isEmpty());
        world.manager.close();
        BranchXid xid = world.a.committed.get(0);
        world.a.branches.put(xid, StandInResource.State.PREPARED);
        refusedSinceItIsOver(xid);
    }

    @Test
    public void anOlderCopyOfALogOfTheSameSession() throws Exception {
        world.b.answer("commit", StandInResource.LOST_BEFORE);
        world.b.before = () -> world.b.isDown |= world.b.calls.contains("commit");
        world.overBoth().commit();
        world.manager.close();
        world.b.before = () -> { };
        world.b.isDown = false;
        // The copy was taken before the decision.
        world.put("rows", "");
        refusedSinceItIsOver(world.b.branches.keySet().iterator().next());
        assertEquals(1, world.a.committed.size());
        assertEquals(1, world.b.branches.size());
    }

    @Test
    public void aFileBesideTheLogThatIsntReadable() throws Exception {
        world.manager.close();
        Path file = world.folder.resolve("log-databases");
        String right = "{\"version\": 1, \"manager\": \"" + world.manager.name() + "\", \"incarnation\": 1, \"databases\": "
            + "[{\"number\": 0, \"at\": \"the place of a\", \"identity\": \"the first\"}]}";
        String all = "\\[\\{.*\\}\\]", the = ", \"identity\": \"the first\"";
        for (String[] change : new String[][] {{"}]}", "}], \"more\": " + "[".repeat(1_000_000)}, {the, ""}, {"\"the first\"", "null"},
            {"\"at\": \"the place of a\", ", ""}, {"\"number\": 0", "\"number\": 4294967296"}, {"\"number\": 0, ", ""}, {all, "[7]"},
            {all, "7"}, {", \"databases\".*", "}"}, {"\"incarnation\": 1", "\"incarnation\": \"1\""}, {"\"manager\": \"[^\"]*\", ", ""},
            {"\"version\": 1, ", "\"version\": 1, \"shut\": 2, "}, {"(?s).*", "[]"}, {"(?s).*", "null"}}) {
            String text = right.replaceFirst(change[0], change[1]);
            Files.writeString(file, text);
            Fault.Unavailable error = assertThrows(change[0] + " as " + change[1], Fault.Unavailable.class, () -> world.builder().start());
            assertTrue(error.getMessage(), error.getMessage().startsWith(file + " can't be read ("));
            assertEquals(text, Files.readString(file));
        }
        Files.writeString(file, right);
        world.a.identity = "the first";
        world.builder().start().close();
    }

    @Test
    public void otherDatabasesInTheirPlaces() throws Exception {
        world.manager.close();
        Files.delete(world.folder.resolve("log"));
        world.a.identity = "the first";
        world.b.identity = "the second";
        world.manager = world.builder().start();
        world.a.branches.put(world.own(2, 1), StandInResource.State.PREPARED);
        world.manager.close();
        // The driver in Python has the same file.
        Map<?, ?> file = (Map<?, ?>) Json.read(Files.readString(world.folder.resolve("log-databases")));
        assertEquals(1L, file.get("version"));
        assertEquals(world.manager.name(), file.get("manager"));
        assertEquals(List.of(Map.of("number", 0L, "at", "the place of a", "identity", "the first"),
            Map.of("number", 1L, "at", "the place of b", "identity", "the second")), file.get("databases"));
        world.a.identity = "the second";
        world.b.identity = "the first";
        world.a.calls.clear();
        world.b.calls.clear();
        Fault.Unavailable error = assertThrows(Fault.Unavailable.class, () -> world.builder().start());
        assertTrue(error.getMessage(), error.getMessage().contains("at the place of a is the second, and it was the first"));
        assertTrue(error.getMessage(), error.getMessage().contains("changed places"));
        assertTrue(world.a.calls.isEmpty() && world.b.calls.isEmpty());
        world.a.identity = "the first";
        world.b.identity = "the second";
        world.manager = world.builder().start();
        nothingIsLeft();
        world.manager.close();
    }

    @Test
    public void aLogKeepsTheNameThatWasDrawn() throws Exception {
        world.manager.close();
        Files.delete(world.folder.resolve("log"));
        world.manager = world.builder().name("shop").start();
        String name = world.manager.name();
        assertTrue(name, name.matches("shop-[a-z0-9]{6}"));
        world.manager.close();
        world.manager = world.builder().start();
        assertEquals(name, world.manager.name());
        world.manager.close();
        Fault.Unavailable error = assertThrows(Fault.Unavailable.class, () -> world.builder().name("bank").start());
        assertTrue(error.getMessage(), error.getMessage().contains("manager " + name));
    }

    @Test
    public void anIdentifierHasOneSpelling() {
        String rest = ":73000000000000000700000000000000ab:0000000000000000";
        assertEquals("7" + rest, BranchXid.parse("7" + rest).toString());
        for (String text : List.of("07" + rest, "+7" + rest, "7" + rest.toUpperCase(java.util.Locale.ROOT))) {
            assertThrows(text, IllegalArgumentException.class, () -> BranchXid.parse(text));
        }
    }

    @Test
    public void placesOfALog() {
        assertEquals("nothing sees there whether a program of another machine has it too", Log.dangerOf("nfs4"));
        assertEquals("it is lost with the container or the machine, and what is prepared then waits for somebody", Log.dangerOf("overlay"));
        assertEquals("", Log.dangerOf("ext4"));
    }

    @Test
    public void branchesOfOthersStay() throws Exception {
        BranchXid others = BranchXid.of("other", "0000000000000009" + "0000000000000001", 1, 0);
        world.a.branches.put(others, StandInResource.State.PREPARED);
        world.manager.close();
        world.manager = world.builder().start();
        assertEquals(1, world.a.branches.size());
        world.manager.close();
    }

    private Manager.Builder over(StandInResource... resources) {
        Manager.Builder builder = Manager.over(world.folder.resolve("log")).starter(words -> StandInCoordinator.of(world.folder, words)).threads(2);
        for (StandInResource resource : resources) {
            builder.resource(resource);
        }
        return builder;
    }

    private void hasNumberOne(Manager.Builder builder) throws Exception {
        Manager other = builder.start();
        GlobalTransaction transaction = other.begin(Duration.ofSeconds(5));
        transaction.enlist(world.b);
        assertTrue(world.b.branches.keySet().iterator().next().toString().endsWith("00000001"));
        transaction.rollback();
        other.close();
    }

    @Test
    public void resourcesKeepTheirNumbers() throws Exception {
        world.manager.close();
        hasNumberOne(over(world.b));
        hasNumberOne(over(world.b, world.a));
        Fault.Unavailable error = assertThrows(Fault.Unavailable.class, () -> over(world.a, new StandInResource("c")).start());
        assertTrue(error.getMessage(), error.getMessage().contains("c isn't one of them"));
    }

    private Manager.Builder withThird(StandInResource third) {
        return world.builder().resource(third);
    }

    private void refusedWithThird(StandInResource third, String wanted) {
        String text = assertThrows(Fault.Unavailable.class, () -> withThird(third).start()).getMessage();
        assertTrue(text, text.contains(wanted));
    }

    @Test
    public void aResourceThatIsAddedAndRenamed() throws Exception {
        world.manager.close();
        BranchXid decided = BranchXid.of(world.manager.name(), "0000000000000001" + "0000000000000008", 1, 1);
        rowsOfAnEarlierSession(decided);
        world.a.branches.put(world.own(1, 9), StandInResource.State.PREPARED);
        StandInResource third = new StandInResource("c"), other = new StandInResource("d");
        third.identity = "the third";
        world.manager = withThird(third).start();
        nothingIsLeft();
        assertEquals(List.of(decided), world.b.committed);
        GlobalTransaction transaction = world.overBoth();
        transaction.enlist(third);
        assertTrue(third.branches.keySet().iterator().next().toString().endsWith("00000002"));
        transaction.commit();
        world.manager.close();
        // Another name in its place may be a third of another name: nobody but an operator knows.
        refusedWithThird(other, "and d isn't one of them. To add one, give the manager the others, too; if one of them is called d now");
        Path names = world.folder.resolve("names");
        Files.writeString(names, Files.readString(names).replace("rm 2 c", "rm 2 d"));
        other.identity = "the fourth";
        refusedWithThird(other, "d isn't the one that the log");
        other.identity = "the third";
        world.manager = withThird(other).start();
        world.manager.close();
    }

    @Test
    public void namesInAFileBesideTheLog() throws Exception {
        world.manager.close();
        // The log was made with one resource, and a driver before this one added the other.
        Files.writeString(world.folder.resolve("names"), "rm 0 a\n");
        Files.writeString(world.folder.resolve("log-resources"), "a\nb\n");
        hasNumberOne(over(world.b));
    }

    @Test
    public void otherVersionsOfTheProtocol() throws Exception {
        world.manager.close();
        Files.writeString(world.folder.resolve("protocol"), "1 version 1.0.0 name shop-1 rms a b");
        world.manager = world.builder().start();
        world.overBoth().commit();
        world.manager.close();
        Files.writeString(world.folder.resolve("protocol"), "2");
        Fault.Unavailable error = assertThrows(Fault.Unavailable.class, () -> world.builder().patience(Duration.ofMillis(200)).start());
        assertTrue(error.getMessage(), error.getMessage().contains("another protocol"));
    }

    @Test
    public void aFirstLineThatIsNone() throws Exception {
        world.manager.close();
        for (String line : List.of("", "1\nrestarted", "1\nrestarted x", "1\nrestarted 99999999999999999999")) {
            Files.writeString(world.folder.resolve("protocol"), line);
            Manager.Builder builder = world.builder().patience(Duration.ofMillis(200));
            String said = assertThrows(line, Fault.Unavailable.class, builder::start).getMessage();
            assertTrue(said, said.contains("the coordinator is gone") || said.contains("another protocol"));
            World.eventually(() -> !world.coordinator.isAlive());
        }
    }

    @Test
    public void repliesToARecoveryThatAreNone() throws Exception {
        for (String reply : List.of(" ", "xa_commit", "xa_rollback 7:00", "xa_forget 7:zz:00", "xa_commit 7:00:0000000000000000", "strange",
            "recovered owed x", "recovered owed", "recovered owed 99999999999")) {
            world.manager.close();
            world.put("wrong-at", "recover 0\n" + reply);
            world.manager = world.builder().start();
            Fault.Gone lost = world.manager.up().coordinator.lost();
            // (The stand-in puts the name into an identifier.)
            assertTrue(lost.getMessage(), lost.getMessage().contains("the coordinator replied: " + reply.trim().split("7:")[0]));
            // The next session goes on.
            world.overBoth().commit();
        }
    }

    @Test
    public void whatIsNoPrintOfALog() throws Exception {
        world.manager.close();
        Path names = world.folder.resolve("names");
        String right = Files.readString(names);
        for (String line : List.of("name", "rm", "rm 0")) {
            Files.writeString(names, right + line + "\n");
            Fault.Unavailable error = assertThrows(line, Fault.Unavailable.class, () -> world.builder().start());
            assertTrue(error.getMessage(), error.getMessage().endsWith("isn't what xatm log prints: " + line));
        }
        Files.writeString(names, " \n" + right);
        assertEquals(0, world.builder().status().branches());
        world.manager = world.builder().start();
        world.manager.close();
    }

    @Test
    public void aCoordinatorThatDoesNotConduct() throws Exception {
        world.manager.close();
        isRefusedAtOnce("3 error: unexpected argument '--moves' found", "older than this driver");
    }

    @Test
    public void logsThatTheProgramRefuses() throws Exception {
        world.manager.close();
        isRefusedAtOnce("6 xatm: log: log: the file is another's", "isn't this manager's: the coordinator is gone");
        isRefusedAtOnce("7 xatm: log: log: only its journal is there", "only its journal is there");
        isRefusedAtOnce("8 xatm: log: log: it is shut: 7:00", "say xatm log --open " + world.folder.resolve("log"));
    }

    private void isRefusedAtOnce(String refusal, String text) throws Exception {
        world.put("refusal", refusal);
        long begun = System.nanoTime();
        Fault.Unavailable error = assertThrows(Fault.Unavailable.class, () -> world.builder().start());
        assertTrue(error.getMessage(), error.getMessage().contains(text));
        // Nobody waits for another program to leave it.
        assertTrue(System.nanoTime() - begun < TimeUnit.SECONDS.toNanos(7));
    }

    @Test
    public void aProgramThatIsNotThere() {
        Fault.Unavailable error = assertThrows(Fault.Unavailable.class, () -> Manager.over(world.folder.resolve("other"))
            .program("/no/such/program").resource(new StandInResource("c")).start());
        assertTrue(error.getMessage(), error.getMessage().contains("Builder.program"));
    }

    private StandInCoordinator standIn() {
        return (StandInCoordinator) world.coordinator;
    }

    @Test
    public void anErrorOfTheDriverAsItAsksForADecision() throws Exception {
        GlobalTransaction transaction = world.overBoth();
        standIn().writing = Map.entry("tell", new OutOfMemoryError("a test's"));
        Fault.RolledBack error = assertThrows(Fault.RolledBack.class, transaction::commit);
        assertTrue(error.getMessage(), error.getMessage().contains("an error of the driver: java.lang.OutOfMemoryError"));
        nothingIsLeft();
        assertTrue(world.a.committed.isEmpty() && world.b.committed.isEmpty());
        world.overBoth().commit();
    }

    @Test
    public void anErrorOfTheDriverAsItReadsThatItIsDecided() throws Exception {
        GlobalTransaction transaction = world.overBoth();
        standIn().reading = Map.entry("commit", new OutOfMemoryError("a test's"));
        transaction.commit();
        nothingIsLeft();
        assertEquals(1, world.a.committed.size());
        assertEquals(1, world.b.committed.size());
    }

    @Test
    public void anEndOverACoordinatorThatIsSilent() throws Exception {
        world.manager.close();
        world.manager = world.builder().patience(Duration.ofSeconds(1)).start();
        GlobalTransaction open = world.overBoth();
        world.put("silent", "rollback");
        FutureTask<Void> closing = new FutureTask<>(world.manager::close, null);
        new Thread(closing).start();
        closing.get(10, TimeUnit.SECONDS);
        assertThrows(Fault.RolledBack.class, open::commit);
        world.manager = world.builder().start();
        nothingIsLeft();
        world.manager.close();
    }

    @Test
    public void aCoordinatorThatIsSilent() throws Exception {
        world.manager.close();
        world.manager = world.builder().patience(Duration.ofSeconds(1)).start();
        // Its row is to leave the log: the coordinator is asked what is due, and says nothing
        // either.
        world.overBoth().commit();
        GlobalTransaction transaction = world.overBoth();
        world.put("silent", "tell");
        FutureTask<Fault> committing = new FutureTask<>(() -> assertThrows(Fault.RolledBack.class, transaction::commit));
        Thread thread = new Thread(committing);
        thread.setDaemon(true);
        thread.start();
        String message = committing.get(10, TimeUnit.SECONDS).getMessage();
        assertTrue(message, message.contains("it didn't reply for 1 s"));
        nothingIsLeft();
        world.manager.close();
    }

    @Test
    public void aCoordinatorThatIsSilentAsItStarts() throws Exception {
        world.manager.close();
        world.put("silent", "restarted");
        Manager.Builder builder = world.builder().patience(Duration.ofSeconds(1));
        String text = assertThrows(Fault.Unavailable.class, builder::start).getMessage();
        assertTrue(text, text.contains("it said nothing for 1000 ms"));
        World.eventually(() -> !world.coordinator.isAlive());
        // So too as it is asked what became of a transaction.
        world.manager = builder.start();
        world.dieAt("tell");
        world.put("silent", "fate");
        GlobalTransaction transaction = world.overBoth();
        assertThrows(Fault.OutcomeUnknown.class, transaction::commit);
        nothingIsLeft();
        world.manager.close();
    }

    @Test
    public void anotherProgramMakesTheLogAtThatMoment() throws Exception {
        world.manager.close();
        for (String name : List.of("log", "names", "rows", "incarnation")) {
            Files.delete(world.folder.resolve(name));
        }
        AtomicInteger starts = new AtomicInteger();
        world.manager = world.builder().starter(words -> {
            if (words.get(1).equals("serve") && starts.incrementAndGet() == 1) {
                StandInCoordinator.of(world.folder, List.of("xatm", "serve", "--moves", "--name", "other", "--rm", "a", "--rm", "b")).destroy();
                world.put("refusal", "6 xatm: log: log: it is that of the manager other");
            } else if (words.get(1).equals("serve")) {
                Files.delete(world.folder.resolve("refusal"));
            }
            return StandInCoordinator.of(world.folder, words);
        }).start();
        assertEquals("other", world.manager.name());
        world.overBoth().commit();
        world.manager.close();
    }

    @Test
    public void aCommitThatWaitsForTheNextSessionKeepsThatFromNothing() throws Exception {
        for (int count = 0; count < 10; count++) {
            Session before = world.manager.session();
            GlobalTransaction transaction = world.overBoth();
            world.put("silent", "tell");
            FutureTask<Fault> committing = new FutureTask<>(() -> assertThrows(Fault.RolledBack.class, transaction::commit));
            new Thread(committing).start();
            World.eventually(() -> !Files.exists(world.folder.resolve("silent")));
            // One begins the next session, while the other has its transaction, and waits for that
            // session.
            FutureTask<Session> next = new FutureTask<>(() -> {
                Session up = before;
                while (up == before) {
                    up = world.manager.session();
                }
                return up;
            });
            new Thread(next).start();
            before.coordinator.kill("a test");
            next.get(4, TimeUnit.SECONDS);
            committing.get(4, TimeUnit.SECONDS);
        }
        nothingIsLeft();
    }

    @Test
    public void timeOutsThatAllWaitForAResource() throws Exception {
        world.manager.close();
        world.manager = world.builder().threads(8).start();
        CountDownLatch waiting = new CountDownLatch(4), mayGoOn = new CountDownLatch(1);
        world.a.before = () -> {
            if (Thread.currentThread().getName().equals("garterfossil clock")) {
                waiting.countDown();
                World.await(mayGoOn);
            }
        };
        for (int count = 0; count < 4; count++) {
            world.manager.begin(Duration.ofMillis(500)).enlist(world.a);
        }
        World.await(waiting);
        // The time-outs of others come all the same.
        GlobalTransaction other = world.manager.begin(Duration.ofMillis(500));
        other.enlist(world.b);
        World.eventually(() -> other.outcome() == Outcome.ROLLED_BACK);
        // Nobody but the manager's own threads sees to it that its row leaves the log.
        world.overBoth().commit();
        World.eventually(() -> world.rows().isEmpty());
        mayGoOn.countDown();
        nothingIsLeft();
        world.manager.close();
    }

    @Test
    public void aTimeOutOverAResourceThatIsSilent() throws Exception {
        CountDownLatch mayGoOn = new CountDownLatch(1);
        GlobalTransaction transaction = world.manager.begin(Duration.ofMillis(1500));
        transaction.enlist(world.a);
        transaction.enlist(world.b);
        world.a.before = () -> World.await(mayGoOn);
        World.eventually(() -> world.b.branches.isEmpty());
        assertEquals(1, world.a.branches.size());
        mayGoOn.countDown();
        nothingIsLeft();
    }

    /** Work that runs at a resource, and that nobody can cut short: the resource is silent. */
    private void worksAt(StandInResource resource, GlobalTransaction transaction, CountDownLatch mayGoOn) throws Fault {
        Gate gate = transaction.enlist(resource).gate();
        CountDownLatch isInside = new CountDownLatch(1);
        Thread working = new Thread(() -> {
            try {
                gate.enter(() -> World.await(mayGoOn));
                isInside.countDown();
                World.await(mayGoOn);
                gate.leave();
            } catch (Fault fault) {
                throw new AssertionError(fault);
            }
        });
        working.setDaemon(true);
        working.start();
        World.await(isInside);
    }

    @Test
    public void aTimeOutWhileWorkCantBeCutShort() throws Exception {
        CountDownLatch mayGoOn = new CountDownLatch(1);
        GlobalTransaction transaction = world.manager.begin(Duration.ofMillis(1500));
        worksAt(world.a, transaction, mayGoOn);
        transaction.enlist(world.b);
        // The others' locks are free.
        World.eventually(() -> world.b.branches.isEmpty());
        mayGoOn.countDown();
        nothingIsLeft();
    }

    @Test
    public void aSessionBehindWorkThatCantBeCutShort() throws Exception {
        CountDownLatch mayGoOn = new CountDownLatch(1);
        for (int count = 0; count < 4; count++) {
            worksAt(world.a, world.begin(), mayGoOn);
        }
        long begun = System.nanoTime();
        world.manager.session().coordinator.kill("a test");
        GlobalTransaction next = world.begin();
        next.enlist(world.b);
        next.commit();
        assertTrue(System.nanoTime() - begun < TimeUnit.SECONDS.toNanos(12));
        mayGoOn.countDown();
    }

    @Test
    public void aResourceThatIsSilentAtARestart() throws Exception {
        CountDownLatch mayGoOn = new CountDownLatch(1);
        world.a.beforeConnect = () -> World.await(mayGoOn);
        Session before = world.manager.session();
        before.coordinator.kill("a test");
        FutureTask<Session> next = new FutureTask<>(world.manager::session);
        new Thread(next).start();
        // It isn't waited for as long as a start waits.
        next.get(6, TimeUnit.SECONDS);
        GlobalTransaction transaction = world.begin();
        transaction.enlist(world.b);
        transaction.commit();
        mayGoOn.countDown();
        nothingIsLeft();
    }

    @Test
    public void aResourceThatIsSilentAtTheStart() throws Exception {
        world.manager.close();
        CountDownLatch mayGoOn = new CountDownLatch(1);
        world.a.patience = Duration.ofMillis(500);
        world.a.beforeConnect = () -> World.await(mayGoOn);
        world.manager = world.builder().start();
        GlobalTransaction transaction = world.begin();
        transaction.enlist(world.b);
        transaction.commit();
        assertEquals(1, world.b.committed.size());
        GlobalTransaction other = world.begin();
        Fault.Lost error = assertThrows(Fault.Lost.class, () -> other.enlist(world.a));
        assertTrue(error.getMessage(), error.getMessage().contains("has said nothing for 500 ms"));
        other.rollback();
        mayGoOn.countDown();
        nothingIsLeft();
        world.overBoth().commit();
        world.manager.close();
    }

    @Test
    public void aRecoveryAtTheStartThatFailsByAnError() throws Exception {
        Process first = world.coordinator;
        world.a.branches.put(world.own(1, 99), StandInResource.State.PREPARED);
        Runnable failing = World.failingOnce();
        world.a.before = () -> {
            if (world.coordinator != first) {
                failing.run();
            }
        };
        first.destroy();
        // It is tried again.
        nothingIsLeft();
        world.overBoth().commit();
        assertEquals(List.of(world.own(1, 99)), world.a.rolledBack);
    }

    @Test
    public void aRecoveryThatFailsByAnError() throws Exception {
        Runnable failing = World.failingOnce();
        world.a.before = () -> {
            if (Thread.currentThread().getName().startsWith("garterfossil recovery")) {
                failing.run();
            }
        };
        world.loseOneAt(world.a);
        nothingIsLeft();
        world.overBoth().commit();
    }

    @Test
    public void anXaCommitThatIsPutOffWhileAnotherIsLost() throws Exception {
        world.manager.close();
        BranchXid one = BranchXid.of(world.manager.name(), "0000000000000001" + "0000000000000008", 1, 1);
        BranchXid other = BranchXid.of(world.manager.name(), "0000000000000001" + "0000000000000009", 1, 1);
        world.put("rows", one.transaction() + " 7:" + one.transaction() + ":0000000100000001\n"
            + other.transaction() + " 7:" + other.transaction() + ":0000000100000001\n");
        world.b.answer("commit", XAException.XA_RETRY);
        world.b.before = () -> {
            if (world.b.calls.contains("commit")) {
                world.b.before = () -> { };
                world.b.answer("commit", StandInResource.LOST_BEFORE);
            }
            if (world.b.calls.contains("recover")) {
                // No scan has found them.
                world.b.branches.put(one, StandInResource.State.PREPARED);
                world.b.branches.put(other, StandInResource.State.PREPARED);
            }
        };
        world.b.calls.clear();
        world.manager = world.builder().start();
        World.eventually(() -> world.b.committed.size() == 2 && world.rows().isEmpty());
        world.manager.close();
    }

    /**
     * Rows of an earlier session, each with a prepared branch at b, and at a too if it is over
     * both.
     */
    private void rowsOfAnEarlierSession(BranchXid... atB) throws Exception {
        StringBuilder rows = new StringBuilder();
        for (BranchXid xid : atB) {
            rows.append(xid.transaction()).append(" 7:").append(xid.transaction()).append(":0000000100000001\n");
            world.b.branches.put(xid, StandInResource.State.PREPARED);
        }
        world.put("rows", rows.toString());
    }

    @Test
    public void aRecoveryMakesNoCallOnceItsSessionIsOver() throws Exception {
        world.manager.close();
        BranchXid one = BranchXid.of(world.manager.name(), "0000000000000001" + "0000000000000008", 1, 1);
        BranchXid other = BranchXid.of(world.manager.name(), "0000000000000001" + "0000000000000009", 1, 1);
        rowsOfAnEarlierSession(one, other);
        world.b.isDown = true;
        world.manager = world.builder().start();
        Session before = world.manager.session();
        ResourceManager rm = before.recoveries.stream().map(it -> it.rm).filter(it -> it.resource == world.b).findFirst().orElseThrow();
        CountDownLatch isTold = new CountDownLatch(1), mayGoOn = new CountDownLatch(1);
        AtomicReference<Thread> recovery = new AtomicReference<>();
        AtomicInteger late = new AtomicInteger();
        world.b.calls.clear();
        world.b.before = () -> {
            if (world.b.calls.contains("recover") && recovery.compareAndSet(null, Thread.currentThread())) {
                // It is told a call for what it lists, and connects anew for that.
                rm.noteStray();
                world.b.beforeConnect = () -> {
                    isTold.countDown();
                    World.await(mayGoOn);
                };
            } else if (mayGoOn.getCount() == 0 && Thread.currentThread() == recovery.get()) {
                late.incrementAndGet();
            }
        };
        world.b.isDown = false;
        World.await(isTold);
        before.coordinator.kill("a test");
        FutureTask<Session> next = new FutureTask<>(world.manager::session);
        new Thread(next).start();
        next.get(6, TimeUnit.SECONDS);
        mayGoOn.countDown();
        World.eventually(() -> world.b.committed.size() == 2 && world.rows().isEmpty());
        assertEquals(0, late.get());
        world.manager.close();
    }

    @Test
    public void heuristicEndsOfAnEarlierSession() throws Exception {
        world.manager.close();
        BranchXid one = BranchXid.of(world.manager.name(), "0000000000000001" + "0000000000000008", 1, 1);
        BranchXid other = BranchXid.of(world.manager.name(), "0000000000000001" + "0000000000000009", 1, 1);
        rowsOfAnEarlierSession(one, other);
        // The first that is committed, as a page lists it, is rolled back by its resource, which
        // lists it until it is asked to forget it.
        world.b.answer("commit", XAException.XA_HEURRB);
        world.manager = world.builder().start();
        World.eventually(() -> world.manager.owing() == 0 && world.rows().isEmpty());
        assertEquals(1, world.b.committed.size());
        assertTrue(world.b.branches.isEmpty() && world.b.calls.contains("forget"));
        world.manager.close();
    }

    @Test
    public void whatIsInDoubt() throws Exception {
        world.manager.close();
        BranchXid decided = BranchXid.of(world.manager.name(), "0000000000000001" + "0000000000000008", 1, 1);
        BranchXid others = BranchXid.of("other", "0000000000000001" + "0000000000000008", 1, 0);
        rowsOfAnEarlierSession(decided);
        world.a.branches.put(world.own(1, 9), StandInResource.State.PREPARED);
        world.a.branches.put(others, StandInResource.State.PREPARED);
        world.a.calls.clear();
        Doubt doubt = world.builder().status();
        assertEquals(2, doubt.branches());
        assertTrue(doubt.toString(), doubt.toString().contains("resource 0, a: 1 in doubt\n  " + world.own(1, 9) + ": waits for xa_rollback"));
        assertTrue(doubt.toString(), doubt.toString().contains("resource 1, b: 1 in doubt\n  " + decided + ": waits for xa_commit"));
        // It only looks.
        assertEquals(Set.of("recover"), Set.copyOf(world.a.calls));
        assertEquals(0, world.builder().recover(Duration.ofSeconds(10)));
        assertEquals(List.of(decided), world.b.committed);
        assertEquals(Set.of(others), world.a.branches.keySet());
        assertEquals(0, world.builder().status().branches());
        world.b.isDown = true;
        assertEquals(1, world.builder().status().unreachable());
        assertEquals(1, world.builder().recover(Duration.ofMillis(300)));
    }

    @Test
    public void whatAProgramAtWorkIsAboutToEndIsNotInDoubt() throws Exception {
        world.manager.close();
        BranchXid stays = world.own(1, 9);
        world.a.branches.put(stays, StandInResource.State.PREPARED);
        world.a.branches.put(world.own(1, 8), StandInResource.State.PREPARED);
        world.put("in-use", "");
        Log kept = Log.read(world.folder.resolve("log"), words -> StandInCoordinator.of(world.folder, words), "xatm", false);
        // What is there at the second look alone is younger.
        world.a.beforeConnect = () -> {
            if (world.a.calls.contains("recover")) {
                world.a.branches.keySet().removeIf(xid -> !xid.equals(stays));
                world.a.branches.put(world.own(1, 10), StandInResource.State.PREPARED);
            }
        };
        world.a.calls.clear();
        Doubt doubt = new Doubt(Path.of("log"), kept, () -> List.of(Listing.of(world.a), Listing.of(world.b)), 1);
        assertEquals(1, doubt.branches());
        assertTrue(doubt.toString(), doubt.toString().contains("a program has it: it ends its branches by itself"));
        assertTrue(doubt.toString(), doubt.toString().contains("  " + stays + ": the program that has the log is to end it; listed for 1 seconds"));
        String text = assertThrows(Fault.Unavailable.class, () -> world.builder().byHand(stays.toString())).getMessage();
        assertTrue(text, text.endsWith("can't be read, so nothing is ended: a program has it"));
    }

    private String notByHand(BranchXid xid) {
        return assertThrows(Fault.Unavailable.class, () -> world.builder().byHand(xid.toString())).getMessage();
    }

    @Test
    public void aBranchIsEndedByHandAsTheLogSays() throws Exception {
        world.manager.close();
        BranchXid decided = BranchXid.of(world.manager.name(), "0000000000000001" + "0000000000000008", 1, 1), later = world.own(9, 1);
        rowsOfAnEarlierSession(decided);
        world.a.branches.put(world.own(1, 9), StandInResource.State.PREPARED);
        world.a.branches.put(later, StandInResource.State.PREPARED);
        try (ByHand it = world.builder().byHand(decided.toString())) {
            assertEquals("b: make the call xa_commit of " + decided, it.toString());
            // Nobody begins a session meanwhile.
            assertTrue(world.coordinator.isAlive());
            assertEquals("it is ended", it.end());
            assertEquals("it was over already: XAER_NOTA", it.end());
        }
        assertFalse(world.coordinator.isAlive());
        try (ByHand it = world.builder().byHand(world.own(1, 9).toString())) {
            it.end();
        }
        assertEquals(List.of(decided), world.b.committed);
        assertEquals(List.of(world.own(1, 9)), world.a.rolledBack);
        assertEquals("no resource lists a branch " + decided + " of this manager", notByHand(decided));
        assertTrue(notByHand(later), notByHand(later).contains("is older than the branch " + later + ", so nothing is ended"));
        assertEquals(Set.of(later), world.a.branches.keySet());
    }

    @Test
    public void nothingIsEndedByHandAsALogSaysThatAnotherProgramHadMeanwhile() throws Exception {
        world.manager.close();
        BranchXid xid = world.own(1, 9);
        world.a.branches.put(xid, StandInResource.State.PREPARED);
        // It may have decided what the log that was looked at doesn't know.
        world.a.beforeConnect = () -> {
            try {
                world.put("incarnation", "7");
            } catch (IOException error) {
                throw new UncheckedIOException(error);
            }
        };
        String text = notByHand(xid);
        assertTrue(text, text.contains("another program has had the log"));
        assertEquals(Set.of(xid), world.a.branches.keySet());
    }

    @Test
    public void aBranchOfAManagerThatIsGoneIsEndedAsAnOperatorSays() throws Exception {
        world.manager.close();
        BranchXid others = BranchXid.of("gone", "0000000000000001" + "0000000000000008", 1, 0);
        world.a.branches.put(others, StandInResource.State.PREPARED);
        assertTrue(notByHand(others), notByHand(others).startsWith("no resource lists a branch " + others));
        String own = world.manager.name();
        String text = assertThrows(Fault.Unavailable.class, () -> world.builder().byHandLeftBy(own, "commit", others.toString())).getMessage();
        assertEquals(own + " is the manager of this file: its log says how its branches end", text);
        try (ByHand it = world.builder().byHandLeftBy("gone", "rollback", others.toString())) {
            assertEquals("it is ended", it.end());
        }
        assertEquals(List.of(others), world.a.rolledBack);
    }

    @Test
    public void aHeuristicEndThatNoPageLists() throws Exception {
        world.manager.close();
        BranchXid one = BranchXid.of(world.manager.name(), "0000000000000001" + "0000000000000008", 1, 1);
        rowsOfAnEarlierSession(one);
        world.b.branches.clear();
        world.b.answer("commit", XAException.XA_HEURRB);
        world.manager = world.builder().start();
        World.eventually(() -> world.manager.owing() == 0 && world.rows().isEmpty());
        // No program waits for it any more, but it is told.
        assertEquals(1, world.manager.heuristicEnds().size());
        world.overBoth().commit();
        world.manager.close();
    }

    @Test
    public void aDebtThatCantBePaidKeepsNoOtherWaiting() throws Exception {
        world.manager.close();
        BranchXid one = BranchXid.of(world.manager.name(), "0000000000000001" + "0000000000000008", 1, 1);
        rowsOfAnEarlierSession(one);
        world.b.branches.clear();
        world.b.before = () -> world.b.answer("commit", world.b.committed.isEmpty() ? XAException.XAER_PROTO : 0);
        world.manager = world.builder().start();
        GlobalTransaction transaction = world.overBoth();
        world.b.before = () -> {
            // Of the new branch alone xa_commit has an answer.
            boolean isNew = !world.b.branches.isEmpty();
            world.b.answer("commit", isNew ? 0 : XAException.XAER_PROTO);
        };
        transaction.commit();
        World.eventually(() -> world.b.committed.size() == 1);
        world.b.before = () -> { };
        nothingIsLeft();
        world.manager.close();
    }

    @Test
    public void aCoordinatorThatIsntAskedForLong() throws Exception {
        world.manager.close();
        world.manager = world.builder().patience(Duration.ofSeconds(1)).start();
        Session session = world.manager.session();
        GlobalTransaction open = world.overBoth();
        // Nobody waits for the reply to what its resource answered.
        GlobalTransaction alone = world.begin();
        alone.enlist(world.a);
        alone.commit();
        Thread.sleep(5000);
        assertFalse(session.coordinator.isGone());
        open.commit();
        world.manager.close();
    }
}
