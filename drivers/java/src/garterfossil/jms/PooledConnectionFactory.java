package garterfossil.jms;

import garterfossil.Fault;
import garterfossil.Front;
import garterfossil.GlobalTransaction;
import garterfossil.Manager;
import java.lang.reflect.Method;
import java.util.List;
import javax.jms.Connection;
import javax.jms.ConnectionFactory;
import javax.jms.IllegalStateException;
import javax.jms.JMSException;
import javax.jms.QueueConnection;
import javax.jms.QueueConnectionFactory;
import javax.jms.QueueSession;
import javax.jms.Session;
import javax.jms.TopicConnection;
import javax.jms.TopicConnectionFactory;
import javax.jms.TopicSession;

/**
 * Connections to a broker. A session that is made in a transaction takes part in it; outside of any
 * it is an ordinary one, of another factory. No class implements the interface, since that has more
 * methods from JMS 2.0 on, which the jar may run over.
 */
record PooledConnectionFactory(Manager manager, JmsResource resource, ConnectionFactory outside) {
    ConnectionFactory front() {
        return (ConnectionFactory) Front.of(List.of(ConnectionFactory.class, QueueConnectionFactory.class, TopicConnectionFactory.class), this::invoke);
    }

    private Object invoke(Object front, Method method, Object[] words) throws JMSException {
        switch (method.getName()) {
            case "toString": return "connections to " + resource.name();
            case "createConnection": case "createQueueConnection": case "createTopicConnection":
                if (words != null) {
                    throw new JMSException("the user is that of the XAConnectionFactory");
                }
                return Front.of(List.of(Connection.class, QueueConnection.class, TopicConnection.class), new ConnectionHandle()::invoke);
            default: throw new UnsupportedOperationException(method.getName() + ": connections are made by createConnection");
        }
    }

    /** A connection as a program has it. */
    private final class ConnectionHandle {
        // That of sessions outside of any transaction, once there is one.
        private Connection alone;
        private boolean isClosed, isStarted;

        Object invoke(Object front, Method method, Object[] words) throws Throwable {
            String name = method.getName();
            if (name.equals("toString")) {
                return "a connection to " + resource.name();
            }
            if (name.equals("close")) {
                isClosed = true;
                return ofAlone(method, words);
            }
            if (isClosed) {
                throw new IllegalStateException("the connection is closed");
            }
            switch (name) {
                case "start": case "stop": isStarted = name.equals("start"); return ofAlone(method, words);
                case "createSession": return session(method, words);
                case "createQueueSession": return of(QueueSession.class, session(method, words));
                case "createTopicSession": return of(TopicSession.class, session(method, words));
                case "setClientID": throw new IllegalStateException("the connections of a pool have identifiers of their own");
                case "getClientID": return null;
                case "getExceptionListener": case "setExceptionListener": return ofAlone(method, words);
                default: return Front.direct(alone(), method, words);
            }
        }

        private Object ofAlone(Method method, Object[] words) throws Throwable {
            return alone == null ? null : Front.direct(alone, method, words);
        }

        /** The session, if those of this broker's client have the interface. */
        private <T> T of(Class<T> face, Session made) throws JMSException {
            if (!face.isInstance(made)) {
                made.close();
                throw new JMSException("sessions of " + resource.name() + " have no " + face.getSimpleName());
            }
            return face.cast(made);
        }

        private Session session(Method method, Object[] words) throws Throwable {
            GlobalTransaction transaction = manager.current();
            if (transaction == null) {
                boolean isPlain = method.getName().equals("createSession");
                return SessionHandle.outside(manager,
                    isPlain ? (Session) Front.direct(alone(), method, words) : alone().createSession((boolean) words[0], (int) words[1]));
            }
            try {
                GlobalTransaction.Enlisted branch = transaction.enlist(resource);
                return SessionHandle.of(manager, (JmsLink) branch.link(), branch.gate(), transaction);
            } catch (Fault fault) {
                throw Fault.caused(new JMSException(fault.getMessage()), fault);
            }
        }

        private Connection alone() throws JMSException {
            if (alone == null) {
                if (outside == null) {
                    throw new IllegalStateException("no transaction: begin one, or give JmsResource.outside a ConnectionFactory for other sessions");
                }
                alone = outside.createConnection();
                if (isStarted) {
                    alone.start();
                }
            }
            return alone;
        }
    }
}
