package garterfossil;

import static org.junit.Assert.assertEquals;
import static org.junit.Assert.assertThrows;
import static org.junit.Assert.assertTrue;

import garterfossil.jms.JmsResource;
import java.lang.reflect.InvocationHandler;
import java.lang.reflect.Proxy;
import java.nio.file.Files;
import java.time.Duration;
import java.util.ArrayList;
import java.util.Collections;
import java.util.List;
import java.util.Map;
import java.util.Set;
import java.util.concurrent.CountDownLatch;
import javax.jms.Connection;
import javax.jms.ConnectionFactory;
import javax.jms.ConnectionMetaData;
import javax.jms.IllegalStateException;
import javax.jms.JMSException;
import javax.jms.JMSSecurityException;
import javax.jms.MessageConsumer;
import javax.jms.MessageProducer;
import javax.jms.Queue;
import javax.jms.QueueBrowser;
import javax.jms.QueueConnection;
import javax.jms.QueueConnectionFactory;
import javax.jms.QueueReceiver;
import javax.jms.QueueSender;
import javax.jms.QueueSession;
import javax.jms.Session;
import javax.jms.TextMessage;
import javax.jms.TopicConnectionFactory;
import javax.jms.XAConnection;
import javax.jms.XAConnectionFactory;
import javax.jms.XASession;
import javax.transaction.xa.XAException;
import org.junit.After;
import org.junit.Before;
import org.junit.Rule;
import org.junit.Test;

/** Sessions of a broker, in transactions and outside. */
public class BrokerTest {
    /** As clients of brokers have it, it has the interface of queues that is older, too. */
    private interface XaQueueSession extends XASession, QueueSession {
    }

    @Rule
    public final World world = new World();
    private final StandInResource inner = new StandInResource("inner");
    /** What was sent and received, and by which kind of session. */
    private final List<String> done = new ArrayList<>();
    private final List<Long> made = Collections.synchronizedList(new ArrayList<>());
    /** What lies in the queue by which the broker is known, and whether nobody may have that. */
    private final List<String> identities = new ArrayList<>();
    private final Queue queue = of(Queue.class, Map.of());
    private boolean isForbidden;
    private Manager manager;
    private JmsResource resource;
    private ConnectionFactory factory;
    private GlobalTransaction transaction;

    @Before
    public void start() throws Exception {
        world.manager.close();
        Files.delete(world.folder.resolve("log"));
        resource = JmsResource.of("broker", of(XAConnectionFactory.class, Map.of("createXAConnection", (proxy, method, words) -> xaConnection())))
            .maxConnections(20);
        Session session = of(Session.class, working("outside"));
        Connection plain = of(Connection.class, Map.of("createSession", (proxy, method, words) -> session));
        resource.outside(of(ConnectionFactory.class, Map.of("createConnection", (proxy, method, words) -> plain)));
        manager = world.builder().resource(resource).start();
        factory = resource.connectionFactory(manager);
    }

    @After
    public void stop() {
        manager.associate(null);
        manager.close();
    }

    private XAConnection xaConnection() throws Fault {
        StandInResource.StandInLink link = (StandInResource.StandInLink) inner.connect();
        made.add(link.number());
        Map<String, InvocationHandler> methods = new java.util.HashMap<>(working("in a transaction"));
        methods.put("getXAResource", (proxy, method, words) -> link.xaResource());
        methods.put("getSession", (proxy, method, words) -> proxy);
        methods.put("createQueue", (proxy, method, words) -> words[0].equals("garterfossil.identity") ? queue : null);
        methods.put("createBrowser", (proxy, method, words) -> browser());
        methods.put("createTextMessage", (proxy, method, words) -> message((String) words[0]));
        InvocationHandler plain = methods.get("createProducer");
        methods.put("createProducer", (proxy, method, words) -> words[0] == queue ? identifying() : plain.invoke(proxy, method, words));
        methods.put("createSender", (proxy, method, words) -> of(QueueSender.class, Map.of("send", noting("a sender sends"))));
        methods.put("createReceiver", (proxy, method, words) -> of(QueueReceiver.class, Map.of("receive", noting("a receiver receives"))));
        XASession session = of(XaQueueSession.class, methods);
        ConnectionMetaData data = of(ConnectionMetaData.class, Map.of("getJMSProviderName", (proxy, method, words) -> "Stand-in"));
        return of(XAConnection.class, Map.of("createXASession", (proxy, method, words) -> session, "getMetaData", (proxy, method, words) -> data,
            "close", (proxy, method, words) -> {
                link.close();
                return null;
            }));
    }

    private static TextMessage message(String text) {
        return of(TextMessage.class, Map.of("getText", (proxy, method, words) -> text));
    }

    private QueueBrowser browser() throws JMSException {
        if (isForbidden) {
            throw new JMSSecurityException("the user may not");
        }
        List<TextMessage> messages = new ArrayList<>();
        // As at ActiveMQ, outside of a branch there is something to be seen, and it isn't given
        // out.
        identities.forEach(it -> messages.add(isInBranch() ? message(it) : null));
        return of(QueueBrowser.class, Map.of("getEnumeration", (proxy, method, words) -> Collections.enumeration(messages)));
    }

    private boolean isInBranch() {
        return inner.branches.containsValue(StandInResource.State.ACTIVE);
    }

    private MessageProducer identifying() {
        return of(MessageProducer.class, Map.of("send", (proxy, method, words) -> {
            if (!isInBranch()) {
                throw new JMSException("the session has no branch");
            }
            return identities.add(((TextMessage) words[0]).getText());
        }));
    }

    private Map<String, InvocationHandler> working(String kind) {
        return Map.of(
            "createProducer", (proxy, method, words) -> of(MessageProducer.class, Map.of("send", noting(kind + " sends"))),
            "createConsumer", (proxy, method, words) -> of(MessageConsumer.class, Map.of("receive", noting(kind + " receives"))),
            "commit", noting(kind + " commits"));
    }

    private InvocationHandler noting(String text) {
        return (proxy, method, words) -> {
            done.add(text);
            return null;
        };
    }

    /** An object of these methods; all others do nothing. */
    private static <F> F of(Class<F> face, Map<String, InvocationHandler> methods) {
        return face.cast(Proxy.newProxyInstance(face.getClassLoader(), new Class<?>[] {face}, (proxy, method, words) -> {
            InvocationHandler found = methods.get(method.getName());
            Class<?> kind = method.getReturnType();
            return found != null ? found.invoke(proxy, method, words) : kind == boolean.class ? (Object) false : kind == int.class ? (Object) 0 : null;
        }));
    }

    private void begin() throws Exception {
        transaction = manager.begin(Duration.ofSeconds(20));
        manager.associate(transaction);
    }

    private Session session() throws Exception {
        return factory.createConnection().createSession(true, Session.SESSION_TRANSACTED);
    }

    @Test
    public void aSessionOfNoTransactionUsedInOne() throws Exception {
        Session session = session();
        MessageProducer producer = session.createProducer(null);
        MessageConsumer consumer = session.createConsumer(null);
        producer.send(null);
        begin();
        IllegalStateException error = assertThrows(IllegalStateException.class, () -> producer.send(null));
        assertTrue(error.getMessage(), error.getMessage().contains("outside of any transaction"));
        assertThrows(IllegalStateException.class, () -> consumer.receive(10));
        assertThrows(IllegalStateException.class, session::commit);
        transaction.rollback();
        consumer.receive(10);
        session.commit();
        assertEquals(List.of("outside sends", "outside receives", "outside commits"), done);
    }

    @Test
    public void theInterfacesOfQueuesThatAreOlder() throws Exception {
        QueueConnection connection = ((QueueConnectionFactory) factory).createQueueConnection();
        begin();
        QueueSession session = connection.createQueueSession(true, Session.SESSION_TRANSACTED);
        session.createSender(queue).send(null);
        session.createReceiver(queue).receive(10);
        transaction.commit();
        assertThrows(IllegalStateException.class, () -> session.createSender(queue));
        assertEquals(List.of("a sender sends", "a receiver receives"), done);
        // That of sessions outside has no such interface, as it is said.
        JMSException error = assertThrows(JMSException.class, () -> connection.createQueueSession(false, Session.AUTO_ACKNOWLEDGE));
        assertTrue(error.getMessage(), error.getMessage().contains("QueueSession"));
        ((TopicConnectionFactory) factory).createTopicConnection().close();
    }

    @Test
    public void aLossTriesItsOwnIdentifierAlone() throws Exception {
        begin();
        session().createProducer(null).send(null);
        transaction.commit();
        made.clear();
        inner.restart();
        begin();
        assertThrows(javax.jms.JMSException.class, this::session);
        transaction.rollback();
        begin();
        session();
        transaction.commit();
        // Once to see that it is gone, and once to have it; and so the recovery, which ends the
        // branch that was lost.
        assertTrue("made " + made, made.size() <= 5);
    }

    @Test
    public void aSessionOfASuspendedTransaction() throws Exception {
        begin();
        GlobalTransaction outer = transaction;
        MessageProducer producer = session().createProducer(null);
        begin();
        assertThrows(IllegalStateException.class, () -> producer.send(null));
        transaction.rollback();
        manager.associate(outer);
        producer.send(null);
        outer.commit();
        assertEquals(List.of("in a transaction sends"), done);
        assertEquals(1, inner.committed.stream().filter(BranchXid::isOfAManager).count());
    }

    @Test
    public void aBrokerThatIsSilentAsItPrepares() throws Exception {
        resource.patience(Duration.ofMillis(300));
        begin();
        session().createProducer(null).send(null);
        transaction.enlist(world.a);
        CountDownLatch mayGoOn = new CountDownLatch(1);
        inner.before = () -> World.await(mayGoOn);
        long begun = System.nanoTime();
        assertThrows(Fault.RolledBack.class, transaction::commit);
        assertTrue(System.nanoTime() - begun < Duration.ofSeconds(8).toNanos());
        assertEquals(1, world.a.rolledBack.size());
        inner.before = () -> { };
        mayGoOn.countDown();
        World.eventually(() -> inner.branches.isEmpty() && manager.owing() == 0);
    }

    private String refusedText() {
        inner.calls.clear();
        String text = assertThrows(Fault.Unavailable.class, () -> manager = world.builder().resource(resource).start()).getMessage();
        assertTrue(text, text.contains("broker isn't the one that the log " + world.folder.resolve("log") + " belongs to: "));
        assertTrue(inner.calls.toString(), Set.of("start", "end", "commit TMONEPHASE").containsAll(inner.calls));
        return text;
    }

    @Test
    public void anotherBrokerInItsPlace() throws Exception {
        assertEquals(1, identities.size());
        String first = identities.get(0);
        manager.close();
        identities.set(0, "another");
        String text = refusedText();
        assertTrue(text, text.contains(" is the broker another of Stand-in, and it was the broker " + first + " of Stand-in, reached at "));
        identities.clear();
        text = refusedText();
        assertTrue(text, text.contains(" is a broker of Stand-in whose queue garterfossil.identity is empty, and it was the broker " + first));
        // Nothing is sent to what may be another one.
        assertEquals(List.of(), identities);
        identities.addAll(List.of(first, "a later one"));
        manager = world.builder().resource(resource).start();
    }

    @Test
    public void aBrokerOfWhichNothingIsKnown() throws Exception {
        manager.close();
        for (String name : List.of("log", "log-databases")) {
            Files.delete(world.folder.resolve(name));
        }
        isForbidden = true;
        inner.before = () -> inner.answer("end TMFAIL", XAException.XA_RBROLLBACK);
        try (Logged logged = new Logged()) {
            manager = world.builder().resource(resource).start();
            assertEquals(1, logged.said.stream().filter(it -> it.startsWith("broker, at ") && it.contains("has nothing by which it could be known")).count());
        }
        factory = resource.connectionFactory(manager);
        begin();
        session().createProducer(null).send(null);
        transaction.commit();
        assertEquals(List.of("in a transaction sends"), done);
    }
}
