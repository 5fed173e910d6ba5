import javax.jms.MessageConsumer;
import javax.jms.Session;
import javax.jms.TextMessage;
import javax.jms.XASession;
import javax.transaction.xa.XAResource;
import org.apache.activemq.ActiveMQConnection;
import org.apache.activemq.ActiveMQConnectionFactory;
import org.apache.activemq.ActiveMQXAConnection;
import org.apache.activemq.ActiveMQXAConnectionFactory;

/**
 * What a broker holds: how many branches are prepared there, and then the texts of the queue, which
 * it takes out. Usage: Drain URL.
 */
public class Drain {
    /** A failure ends the process: threads of the broker's client would keep it. */
    static void endsByFailure() {
        Thread.currentThread().setUncaughtExceptionHandler((thread, error) -> {
            error.printStackTrace();
            Runtime.getRuntime().halt(1);
        });
    }

    public static void main(String[] words) throws Exception {
        endsByFailure();
        ActiveMQXAConnection xa = (ActiveMQXAConnection) new ActiveMQXAConnectionFactory(words[0]).createXAConnection();
        xa.start();
        XASession branches = xa.createXASession();
        System.out.println(branches.getXAResource().recover(XAResource.TMSTARTRSCAN | XAResource.TMENDRSCAN).length);
        xa.close();
        ActiveMQConnection connection = (ActiveMQConnection) new ActiveMQConnectionFactory(words[0]).createConnection();
        connection.start();
        Session session = connection.createSession(false, Session.AUTO_ACKNOWLEDGE);
        MessageConsumer consumer = session.createConsumer(session.createQueue("orders"));
        for (TextMessage message = (TextMessage) consumer.receive(3000); message != null; message = (TextMessage) consumer.receive(1000)) {
            System.out.println(message.getText());
        }
        connection.close();
    }
}
