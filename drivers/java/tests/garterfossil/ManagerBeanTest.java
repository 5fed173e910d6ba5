package garterfossil;

import static org.junit.Assert.assertEquals;
import static org.junit.Assert.assertFalse;
import static org.junit.Assert.assertThrows;
import static org.junit.Assert.assertTrue;

import java.lang.management.ManagementFactory;
import java.time.Duration;
import java.util.Map;
import javax.management.JMX;
import javax.management.MBeanServer;
import javax.management.ObjectName;
import javax.transaction.xa.XAException;
import org.junit.Rule;
import org.junit.Test;

/** What operators see. */
public class ManagerBeanTest {
    @Rule
    public final World world = new World();

    @Test
    public void whatJmxShows() throws Exception {
        MBeanServer server = ManagementFactory.getPlatformMBeanServer();
        ObjectName name = new ObjectName("garterfossil:type=Manager,name=" + ObjectName.quote(world.manager.name()));
        ManagerMXBean bean = JMX.newMXBeanProxy(server, name, ManagerMXBean.class);
        world.overBoth().commit();
        world.overBoth().rollback();
        GlobalTransaction late = world.manager.begin(Duration.ofMillis(500));
        late.enlist(world.a);
        World.eventually(() -> bean.getCounts().get("timed_out") == 1);
        world.a.answer("commit", XAException.XA_HEURRB);
        assertThrows(Fault.Heuristic.class, () -> world.overBoth().commit());
        GlobalTransaction open = world.overBoth();
        Map<String, Double> counts = bean.getCounts();
        assertEquals(Map.of("begun", 5.0, "open", 1.0, "committed", 2.0, "rolled_back", 2.0, "unknown", 0.0, "timed_out", 1.0, "heuristic", 1.0,
            "sessions", 1.0, "owed", 0.0), without(counts, "seconds"));
        assertTrue(bean.isUp());
        assertEquals(1, bean.getIncarnation());
        assertTrue(bean.getOpenTransactions().get(0), bean.getOpenTransactions().get(0).endsWith(" s, at a, b"));
        assertEquals(1, bean.getResources().get("a").get("used").intValue());
        assertTrue(bean.getHeuristicEnds().get(0), bean.getHeuristicEnds().get(0).contains("at a is answered XA_HEURRB"));
        open.rollback();
        world.manager.close();
        assertFalse(server.isRegistered(name));
    }

    private static Map<String, Double> without(Map<String, Double> counts, String name) {
        Map<String, Double> found = new java.util.HashMap<>(counts);
        found.remove(name);
        return found;
    }
}
