package garterfossil.jms;

import garterfossil.Fault;
import garterfossil.Front;
import garterfossil.Gate;
import garterfossil.GlobalTransaction;
import garterfossil.Manager;
import java.lang.reflect.InvocationHandler;
import java.lang.reflect.Method;
import java.util.ArrayList;
import java.util.List;
import javax.jms.IllegalStateException;
import javax.jms.JMSException;
import javax.jms.MessageConsumer;
import javax.jms.MessageProducer;
import javax.jms.QueueBrowser;
import javax.jms.QueueReceiver;
import javax.jms.QueueSender;
import javax.jms.QueueSession;
import javax.jms.Session;
import javax.jms.TopicPublisher;
import javax.jms.TopicSession;
import javax.jms.TopicSubscriber;
import javax.jms.TransactionInProgressException;

/**
 * A session as a program has it in a transaction. All its work goes through a gate, which is shut
 * as the transaction ends.
 */
final class SessionHandle {
    private static final Gate.Work NOTHING = () -> { };
    /** The interfaces of sessions and of what they make: JMS 1.1's, and older ones of queues and topics. */
    private static final List<Class<?>> FACES = List.of(Session.class, QueueSession.class, TopicSession.class, MessageConsumer.class,
        QueueReceiver.class, TopicSubscriber.class, MessageProducer.class, QueueSender.class, TopicPublisher.class, QueueBrowser.class);

    private final Manager manager;
    private final JmsLink link;
    private final Gate gate;
    private final GlobalTransaction transaction;
    private final List<Gate.Work> open = new ArrayList<>();
    private boolean isClosed;

    private SessionHandle(Manager manager, JmsLink link, Gate gate, GlobalTransaction transaction) {
        this.manager = manager;
        this.link = link;
        this.gate = gate;
        this.transaction = transaction;
    }

    static Session of(Manager manager, JmsLink link, Gate gate, GlobalTransaction transaction) {
        return (Session) like(link.session, new SessionHandle(manager, link, gate, transaction)::ofSession);
    }

    /** Something with those of JMS's interfaces that a session, or what one makes, has. */
    private static Object like(Object target, InvocationHandler handler) {
        return Front.of(FACES.stream().filter(face -> face.isInstance(target)).toList(), handler);
    }

    /**
     * A session outside of any transaction. It does no work while its thread has one: what it sends
     * and receives would be no part of that, and so be lost or doubled where that is rolled back.
     */
    static Session outside(Manager manager, Session plain) {
        return (Session) outside(manager, (Object) plain);
    }

    private static Object outside(Manager manager, Object target) {
        boolean isWorking = target instanceof Session || target instanceof MessageConsumer || target instanceof MessageProducer;
        return !isWorking ? target : like(target, (it, method, words) -> {
            GlobalTransaction current = manager.current();
            if (current != null && List.of("commit", "send", "publish", "receive", "receiveNoWait").contains(method.getName())) {
                throw new IllegalStateException("this session was made outside of any transaction, and so its work would be no part of " + current
                    + ", which the thread has: make one now that this has begun, and keep none for several transactions (as a cache does)");
            }
            return outside(manager, Front.direct(target, method, words));
        });
    }

    private Object ofSession(Object it, Method method, Object[] words) throws Throwable {
        String name = method.getName();
        switch (name) {
            case "toString": return "a session of " + transaction;
            case "close": return close();
            case "getTransacted": return true;
            case "getAcknowledgeMode": return Session.SESSION_TRANSACTED;
            // JMS has this exception for both (JMS 1.1, section 8.5), and Spring passes over it.
            case "commit": case "rollback":
                throw new TransactionInProgressException(name + " isn't for a session that takes part in " + transaction
                    + ": end that by the UserTransaction or TransactionManager");
            case "recover": case "run": case "setMessageListener":
                throw new IllegalStateException(name + " isn't for a session that takes part in " + transaction);
            default:
        }
        if (isClosed) {
            throw new IllegalStateException("the session is closed");
        }
        Object made = through(link.session, method, words, NOTHING);
        return made instanceof MessageConsumer consumer ? child(made, consumer::close)
            : made instanceof MessageProducer producer ? child(made, producer::close)
            : made instanceof QueueBrowser browser ? child(made, browser::close) : made;
    }

    /** An idle consumer would keep messages that others wait for. */
    private Object close() throws Exception {
        if (!isClosed && !gate.isShut()) {
            for (Gate.Work closing : open) {
                closing.cancel();
            }
        }
        isClosed = true;
        return null;
    }

    private Object child(Object target, Gate.Work closing) {
        open.add(closing);
        link.opened(closing);
        return like(target, (it, method, words) -> {
            switch (method.getName()) {
                case "close": case "toString": return Front.direct(target, method, words);
                case "setMessageListener":
                    throw new IllegalStateException("messages of a transaction are received: a listener has none");
                default: return through(target, method, words, closing);
            }
        });
    }

    private Object through(Object target, Method method, Object[] words, Gate.Work work) throws Throwable {
        GlobalTransaction current = manager.current();
        if (current != null && current != transaction) {
            throw new IllegalStateException("this session takes part in " + transaction + ", and not in " + current
                + ", which the thread has: make one now that this has begun");
        }
        try {
            return Front.through(gate, work, target, method, words);
        } catch (Fault.Unavailable fault) {
            throw Fault.caused(new IllegalStateException(fault.getMessage()), fault);
        } catch (JMSException error) {
            link.fail();
            throw error;
        }
    }
}
