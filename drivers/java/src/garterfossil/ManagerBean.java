package garterfossil;

import java.lang.System.Logger.Level;
import java.lang.management.ManagementFactory;
import java.util.List;
import java.util.Map;
import java.util.stream.Collectors;
import javax.management.JMException;
import javax.management.ObjectName;

/** What JMX shows of a manager. */
final class ManagerBean implements ManagerMXBean {
    private final Manager manager;
    private ObjectName name;

    ManagerBean(Manager manager) {
        this.manager = manager;
    }

    /** Shows it. Where that can't be, the manager works all the same. */
    void register() {
        try {
            ObjectName wanted = new ObjectName("garterfossil", new java.util.Hashtable<>(Map.of("type", "Manager", "name", ObjectName.quote(manager.name()))));
            ManagementFactory.getPlatformMBeanServer().registerMBean(this, wanted);
            name = wanted;
        } catch (JMException | RuntimeException error) {
            Manager.LOG.log(Level.INFO, "JMX doesn't show the manager: " + error);
        }
    }

    void unregister() {
        ObjectName old = name;
        name = null;
        try {
            if (old != null) {
                ManagementFactory.getPlatformMBeanServer().unregisterMBean(old);
            }
        } catch (JMException | RuntimeException error) {
            Manager.LOG.log(Level.DEBUG, "JMX", error);
        }
    }

    @Override
    public String getName() {
        return manager.name();
    }

    @Override
    public String getLog() {
        return manager.log().toString();
    }

    @Override
    public long getIncarnation() {
        Session up = manager.up();
        return up == null ? 0 : up.incarnation;
    }

    @Override
    public boolean isUp() {
        return getWhyNot() == null;
    }

    @Override
    public String getWhyNot() {
        Session up = manager.up();
        return up == null ? "there is no session" : up.whyNot();
    }

    @Override
    public Map<String, Double> getCounts() {
        return manager.counts().entrySet().stream().collect(Collectors.toMap(Map.Entry::getKey, it -> it.getValue().doubleValue()));
    }

    @Override
    public int getOwing() {
        return manager.owing();
    }

    @Override
    public List<String> getOpenTransactions() {
        Session up = manager.up();
        return up == null ? List.of() : up.openTransactions();
    }

    @Override
    public Map<String, Map<String, Integer>> getResources() {
        Session up = manager.up();
        return up == null ? Map.of() : up.recoveries.stream().collect(Collectors.toMap(it -> it.rm.toString(), ManagerBean::of));
    }

    private static Map<String, Integer> of(Recovery recovery) {
        ResourceManager rm = recovery.rm;
        return Map.of("used", rm.used(), "idle", rm.idle(), "most", rm.resource.maxConnections(), "owed", recovery.owed(),
            "recovered", recovery.isRecovered() ? 1 : 0);
    }

    @Override
    public List<String> getHeuristicEnds() {
        return manager.heuristicEnds();
    }
}
