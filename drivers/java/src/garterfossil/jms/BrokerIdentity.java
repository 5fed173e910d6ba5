package garterfossil.jms;

import garterfossil.BranchXid;
import garterfossil.Fault;
import java.lang.reflect.InvocationTargetException;
import java.nio.charset.StandardCharsets;
import java.util.Enumeration;
import java.util.UUID;
import javax.jms.InvalidDestinationException;
import javax.jms.JMSException;
import javax.jms.JMSSecurityException;
import javax.jms.MessageProducer;
import javax.jms.Queue;
import javax.jms.QueueBrowser;
import javax.jms.TextMessage;
import javax.jms.XAConnection;
import javax.jms.XAConnectionFactory;
import javax.jms.XASession;
import javax.transaction.xa.XAException;
import javax.transaction.xa.XAResource;

/**
 * What a broker is known by again. JMS has nothing of the kind, and what ActiveMQ calls itself is
 * drawn anew at each of its starts. So it is a message of the driver's own, in a queue of its own,
 * which stays there: it is only looked at. Outside of a branch a session of XA neither sends nor
 * looks at anything, so each has a branch of its own, which is never prepared.
 */
final class BrokerIdentity {
    static final String QUEUE = "garterfossil.identity";

    private BrokerIdentity() {
    }

    /**
     * That of the broker of a connection, which is made at its first use, if none was kept; null if
     * the user may not do that.
     */
    static String of(XAConnection connection, String kept) throws JMSException {
        XASession session = connection.createXASession();
        try {
            Queue queue = session.createQueue(QUEUE);
            String found = inBranch(session, () -> first(session, queue));
            if (found == null && kept == null) {
                inBranch(session, () -> sent(session, queue));
                // Of several that send at once each takes the first.
                found = inBranch(session, () -> first(session, queue));
            }
            String provider = connection.getMetaData().getJMSProviderName();
            if (found == null) {
                return kept == null ? null : "a broker of " + provider + " whose queue " + QUEUE + " is empty";
            }
            return "the broker " + found + " of " + provider;
        } catch (JMSException error) {
            if (isForbidden(error)) {
                return null;
            }
            throw error;
        } finally {
            session.close();
        }
    }

    private static String first(XASession session, Queue queue) throws JMSException {
        QueueBrowser browser = session.createBrowser(queue);
        try {
            Enumeration<?> messages = browser.getEnumeration();
            Object message = messages.hasMoreElements() ? messages.nextElement() : null;
            return message instanceof TextMessage text ? text.getText() : null;
        } finally {
            browser.close();
        }
    }

    /** Sends a message, with a text that is drawn. */
    private static String sent(XASession session, Queue queue) throws JMSException {
        MessageProducer producer = session.createProducer(queue);
        TextMessage message = session.createTextMessage(UUID.randomUUID().toString());
        producer.send(message);
        producer.close();
        return message.getText();
    }

    private interface Work {
        String done() throws JMSException;
    }

    private static String inBranch(XASession session, Work work) throws JMSException {
        byte[] drawn = UUID.randomUUID().toString().getBytes(StandardCharsets.US_ASCII);
        BranchXid xid = new BranchXid(1, drawn, drawn);
        XAResource resource = session.getXAResource();
        boolean isDone = false;
        try {
            resource.start(xid, XAResource.TMNOFLAGS);
            try {
                String found = work.done();
                isDone = true;
                return found;
            } finally {
                if (isDone) {
                    resource.end(xid, XAResource.TMSUCCESS);
                    resource.commit(xid, true);
                } else {
                    giveUp(resource, xid);
                }
            }
        } catch (XAException error) {
            throw Fault.caused(new JMSException("the broker can't be asked which one it is"), error);
        }
    }

    /** The work has failed, and says why. What is left of the branch ends with the session. */
    private static void giveUp(XAResource resource, BranchXid xid) {
        try {
            resource.end(xid, XAResource.TMFAIL);
            resource.rollback(xid);
        } catch (XAException error) {
            // That it is to be rolled back the broker may say here already.
        }
    }

    /** Whether the user may not have the queue, or there is to be none. */
    private static boolean isForbidden(JMSException error) {
        return error instanceof JMSSecurityException || error instanceof InvalidDestinationException || error.getCause() instanceof SecurityException
            || error.getLinkedException() instanceof SecurityException;
    }

    /**
     * Where the broker is reached, as far as its factory tells: ActiveMQ's has a URL, whose end may
     * have a password.
     */
    static String placeOf(XAConnectionFactory factory) {
        try {
            return String.valueOf(factory.getClass().getMethod("getBrokerURL").invoke(factory)).replaceFirst("\\?.*", "");
        } catch (NoSuchMethodException | IllegalAccessException | InvocationTargetException | RuntimeException error) {
            return factory.getClass().getName();
        }
    }
}
