import java.nio.ByteBuffer;
import javax.jms.TextMessage;
import javax.jms.XAConnection;
import javax.jms.XASession;
import javax.transaction.xa.XAResource;
import javax.transaction.xa.Xid;
import org.apache.activemq.ActiveMQXAConnectionFactory;

/**
 * A branch that a broker's crash left prepared, and its end once messages come again: by XA's calls
 * alone, without any manager.
 *
 * <p>Usage: Leftover prepare URL, and after a crash of the broker Leftover end URL: that sends 5
 * messages, commits the branch, which has sent one more, sends 30, and takes one, which it prints.
 */
public class Leftover {
    private static long last = System.currentTimeMillis();

    private static Xid next() {
        return new OlderXid(ByteBuffer.allocate(8).putLong(++last).array(), new byte[] {1});
    }

    private static void prepare(XASession session, Xid xid) throws Exception {
        session.getXAResource().end(xid, XAResource.TMSUCCESS);
        session.getXAResource().prepare(xid);
    }

    /** What is prepared has sent this. */
    private static Xid sent(XAConnection connection, String text) throws Exception {
        XASession session = connection.createXASession();
        Xid xid = next();
        session.getXAResource().start(xid, XAResource.TMNOFLAGS);
        session.createProducer(session.createQueue("orders")).send(session.createTextMessage(text));
        prepare(session, xid);
        return xid;
    }

    private static void send(XAConnection connection, XAResource commits, String kind, int count) throws Exception {
        for (int number = 0; number < count; number++) {
            commits.commit(sent(connection, kind + number), false);
        }
    }

    private static String take(XAConnection connection) throws Exception {
        XASession session = connection.createXASession();
        Xid xid = next();
        session.getXAResource().start(xid, XAResource.TMNOFLAGS);
        String text = ((TextMessage) session.createConsumer(session.createQueue("orders")).receive(20000)).getText();
        prepare(session, xid);
        session.getXAResource().commit(xid, false);
        return text;
    }

    public static void main(String[] words) throws Exception {
        Drain.endsByFailure();
        XAConnection connection = new ActiveMQXAConnectionFactory(words[1]).createXAConnection();
        connection.start();
        if (words[0].equals("prepare")) {
            sent(connection, "left");
            Runtime.getRuntime().halt(0);
        }
        XAResource commits = connection.createXASession().getXAResource();
        Xid[] left = commits.recover(XAResource.TMSTARTRSCAN | XAResource.TMENDRSCAN);
        send(connection, commits, "before", 5);
        commits.commit(left[0], false);
        send(connection, commits, "after", 30);
        System.out.println(take(connection));
        // The broker looks at what comes next.
        Thread.sleep(1000);
        Runtime.getRuntime().halt(0);
    }
}
