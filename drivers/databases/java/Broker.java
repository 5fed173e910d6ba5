import java.io.File;
import org.apache.activemq.broker.BrokerService;
import org.apache.activemq.broker.region.policy.PolicyEntry;
import org.apache.activemq.broker.region.policy.PolicyMap;
import org.apache.activemq.store.kahadb.KahaDBPersistenceAdapter;

/**
 * A broker of ActiveMQ with its store in a folder. Usage: Broker FOLDER PORT.
 *
 * <p>It keeps all of its journal. If it is killed its index may lack messages that the journal has,
 * and it would delete a file of the journal of which the index names no message.
 *
 * <p>And it hands out what its store has, and not what it keeps beside that: with such a cache it
 * reads messages a second time once a branch is ended that a crash has left, takes them for
 * duplicates, and removes them.
 */
public class Broker {
    public static void main(String[] words) throws Exception {
        KahaDBPersistenceAdapter store = new KahaDBPersistenceAdapter();
        store.setDirectory(new File(words[0], "store"));
        store.setCleanupInterval(0);
        store.setCleanupOnStop(false);
        BrokerService broker = new BrokerService();
        broker.setBrokerName("bank");
        broker.setUseJmx(false);
        broker.setSchedulerSupport(false);
        broker.setDataDirectoryFile(new File(words[0], "data"));
        broker.setPersistenceAdapter(store);
        PolicyEntry queues = new PolicyEntry();
        queues.setUseCache(false);
        broker.setDestinationPolicy(new PolicyMap());
        broker.getDestinationPolicy().setDefaultEntry(queues);
        broker.addConnector("tcp://127.0.0.1:" + words[1]);
        broker.start();
        broker.waitUntilStopped();
    }
}
