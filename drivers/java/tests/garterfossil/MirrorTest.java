package garterfossil;

import static org.junit.Assert.assertEquals;
import static org.junit.Assert.assertFalse;
import static org.junit.Assert.assertThrows;
import static org.junit.Assert.assertTrue;

import java.nio.file.Files;
import java.time.Duration;
import java.util.ArrayList;
import java.util.Collections;
import java.util.List;
import java.util.Set;
import org.junit.After;
import org.junit.Before;
import org.junit.Rule;
import org.junit.Test;

/** The mirror: what is in it when, what it refuses, and the log that is made of it. */
public class MirrorTest {
    @Rule
    public final World world = new World();
    private final StandInMirror mirror = new StandInMirror();
    private Manager manager;

    @Before
    public void start() throws Exception {
        world.manager.close();
        forgetTheLog();
        manager = builder().start();
    }

    @After
    public void stop() {
        manager.close();
    }

    private Manager.Builder builder() {
        return world.builder().patience(Duration.ofSeconds(3)).mirror(mirror.source());
    }

    private void forgetTheLog() throws Exception {
        for (String name : List.of("log", "names", "rows", "incarnation")) {
            Files.deleteIfExists(world.folder.resolve(name));
        }
    }

    private GlobalTransaction overBoth() throws Fault {
        GlobalTransaction transaction = manager.begin(Duration.ofSeconds(20));
        transaction.enlist(world.a);
        transaction.enlist(world.b);
        return transaction;
    }

    private void nothingIsLeft() throws Exception {
        World.eventually(() -> world.a.branches.isEmpty() && world.b.branches.isEmpty() && manager.owing() == 0 && mirror.decided().isEmpty());
    }

    private String refused(Manager.Builder builder) {
        return assertThrows(Fault.Unavailable.class, builder::start).getMessage();
    }

    /** A decision that is in the log and committed at a, while b can't be reached. */
    private String leftAtB() throws Exception {
        GlobalTransaction transaction = overBoth();
        world.b.answer("commit", StandInResource.LOST_BEFORE);
        world.b.before = () -> world.b.isDown |= world.b.calls.contains("commit");
        transaction.commit();
        manager.close();
        world.b.before = () -> { };
        assertEquals(1, world.a.committed.size());
        assertEquals(Set.of(transaction.gtrid()), mirror.decided());
        return transaction.gtrid();
    }

    @Test
    public void aDecisionIsInItBeforeAResourceHearsOfIt() throws Exception {
        List<Set<String>> seen = Collections.synchronizedList(new ArrayList<>());
        GlobalTransaction transaction = overBoth();
        world.a.before = () -> seen.add(mirror.decided());
        transaction.commit();
        // Before xa_end, xa_prepare and xa_commit.
        assertEquals(List.of(Set.of(), Set.of(), Set.of(transaction.gtrid())), seen);
        world.a.before = () -> { };
        nothingIsLeft();
        assertEquals(List.of(world.folder.resolve("log").toString(), "a b", 1L), mirror.managers.get(manager.name()));
        // One in one phase is none of it.
        GlobalTransaction alone = manager.begin(Duration.ofSeconds(20));
        alone.enlist(world.a);
        alone.commit();
        assertEquals(Set.of(), mirror.decided());
    }

    @Test
    public void aStartRunsTwoPrograms() throws Exception {
        leftAtB();
        world.b.isDown = false;
        List<String> run = Collections.synchronizedList(new ArrayList<>());
        manager = builder().starter(words -> {
            run.add(String.join(" ", words.subList(1, 3)));
            return StandInCoordinator.of(world.folder, words);
        }).start();
        assertEquals(List.of("log --explain", "serve --moves"), run);
        nothingIsLeft();
    }

    @Test
    public void aSessionTellsItWhatTheLogHasAndNoMore() throws Exception {
        String gtrid = leftAtB();
        String other = "0".repeat(15) + "1" + "0".repeat(15) + "9";
        mirror.decisions.clear();
        // The one left the log, and the mirror wasn't told; the other one's row the log has, as
        // nobody could tell the mirror.
        mirror.decisions.put(manager.name() + " " + other, BranchXid.of(manager.name(), other, 1, 0).toString());
        world.b.isDown = false;
        List<Set<String>> seen = Collections.synchronizedList(new ArrayList<>());
        world.b.before = () -> seen.add(mirror.decided());
        manager = builder().start();
        nothingIsLeft();
        // Nothing is asked of a resource before that, except what it lists: to see that the other
        // one is over.
        assertTrue(seen.toString(), seen.contains(Set.of(gtrid)));
        assertEquals(1, world.b.committed.size());
        assertEquals(2L, mirror.managers.get(manager.name()).get(2));
    }

    @Test
    public void whileItIsAwayNothingIsCommitted() throws Exception {
        GlobalTransaction transaction = overBoth();
        world.a.before = () -> mirror.isUp = false;
        assertThrows(Fault.OutcomeUnknown.class, transaction::commit);
        world.a.before = () -> { };
        assertTrue(world.a.committed.isEmpty() && world.b.committed.isEmpty());
        Fault error = assertThrows(Fault.Unavailable.class, this::overBoth);
        assertTrue(error.getMessage(), error.getMessage().startsWith("the mirror can't be used now: "));
        mirror.isUp = true;
        // However often it was asked for meanwhile, a session that can't begin uses up no
        // incarnation.
        World.eventually(() -> world.a.committed.size() == 1 && world.b.committed.size() == 1);
        nothingIsLeft();
        assertEquals(2L, mirror.managers.get(manager.name()).get(2));
    }

    @Test
    public void aDecisionThatMayBeOnOneMachineAloneIsToldToNoResource() throws Exception {
        GlobalTransaction transaction = overBoth();
        world.a.before = () -> mirror.warning = world.a.calls.contains("end") ? "canceling wait for synchronous replication" : null;
        world.b.before = () -> assertFalse(world.b.calls.contains("commit") && manager.up().incarnation == 1);
        // The next session has it, and so the program is told what is so.
        transaction.commit();
        world.a.before = () -> { };
        World.eventually(() -> world.a.committed.size() == 1 && world.b.committed.size() == 1);
        assertEquals(2, manager.up().incarnation);
    }

    @Test
    public void anOlderLogThanItIsRefused() throws Exception {
        String gtrid = leftAtB();
        // A copy that was taken before the decision.
        world.put("rows", "");
        world.b.isDown = false;
        for (int count = 0; count < 3; count++) {
            String text = refused(builder());
            assertTrue(text, text.contains("is older than its mirror, which has decided to commit " + gtrid + ", of which the log knows nothing"));
            assertEquals(Set.of(gtrid), mirror.decided());
        }
        // None was started.
        assertEquals("1", Files.readString(world.folder.resolve("incarnation")));
        mirror.managers.get(manager.name()).set(2, 7L);
        String text = refused(builder());
        assertTrue(text, text.contains("is older than its mirror, in session 1 and not after 7"));
    }

    @Test
    public void whatItHasDecidedIsKeptWhileAResourceCantBeLookedAt() throws Exception {
        String gtrid = leftAtB();
        world.put("rows", "");
        manager = builder().start();
        Session session = manager.up();
        assertEquals(Set.of(gtrid), mirror.decided());
        world.b.isDown = false;
        World.eventually(() -> session.whyNot() != null);
        assertTrue(session.whyNot(), session.whyNot().contains("which the mirror has decided to commit, and of which this log knows nothing"));
        // It is neither rolled back nor forgotten.
        assertEquals(1, world.b.branches.size());
        assertEquals(Set.of(gtrid), mirror.decided());
    }

    @Test
    public void aLogIsMadeOfItWhereTheMachineIsLost() throws Exception {
        String gtrid = leftAtB(), name = manager.name();
        String xids = mirror.decisions.get(name + " " + gtrid);
        String text = assertThrows(Fault.Unavailable.class, () -> builder().failOver()).getMessage();
        assertTrue(text, text.contains("there is no log to be made at "));
        forgetTheLog();
        for (int count = 0; count < 2; count++) {
            text = refused(builder());
            assertTrue(text, text.contains("the mirror knows the manager " + name + ", whose log was there"));
        }
        assertFalse(Files.exists(world.folder.resolve("log")));
        assertEquals("log " + world.folder.resolve("log") + ", of the manager " + name + ": made, with 1 decisions to commit", builder().failOver());
        assertEquals(List.of("name " + name, "rm 0 a", "rm 1 b", "incarnation 101", gtrid + " 2 " + xids, "end"),
            Files.readAllLines(world.folder.resolve("made")));
        assertEquals(101L, mirror.managers.get(name).get(2));
        mirror.managers.put("shop-2", mirror.managers.get(name));
        text = assertThrows(Fault.Unavailable.class, () -> builder().failOver()).getMessage();
        assertTrue(text, text.contains("the mirror knows several managers whose log is log, as ") && text.endsWith(": give --name"));
        assertTrue(builder().name("shop").failOver().contains("of the manager shop-2: made"));
    }

    @Test
    public void whoeverIsTakenOverDecidesNothingMore() throws Exception {
        GlobalTransaction transaction = overBoth();
        world.a.before = () -> mirror.managers.get(manager.name()).set(2, 101L);
        assertThrows(Fault.OutcomeUnknown.class, transaction::commit);
        world.a.before = () -> { };
        assertTrue(world.a.committed.isEmpty() && world.b.committed.isEmpty());
        assertThrows(Fault.Unavailable.class, this::overBoth);
        assertEquals("1", Files.readString(world.folder.resolve("incarnation")));
    }
}
