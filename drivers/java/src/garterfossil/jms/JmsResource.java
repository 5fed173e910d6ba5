package garterfossil.jms;

import garterfossil.Aside;
import garterfossil.Fault;
import garterfossil.Known;
import garterfossil.Link;
import garterfossil.Manager;
import garterfossil.PooledResource;
import java.util.BitSet;
import java.util.Set;
import java.util.concurrent.TimeUnit;
import javax.jms.ConnectionFactory;
import javax.jms.InvalidClientIDException;
import javax.jms.JMSException;
import javax.jms.XAConnection;
import javax.jms.XAConnectionFactory;

/**
 * A message broker, by its client's XAConnectionFactory, with a pool of connections.
 *
 * <p>Each connection has a client identifier of its own, of which a broker lets one in at a time
 * (JMS 1.1, section 4.3.2): so a connection that an earlier manager left is seen to be gone before
 * a new one of its identifier is used.
 */
public final class JmsResource extends PooledResource<JmsResource> {
    private static final long PATIENCE = TimeUnit.SECONDS.toNanos(40);

    private final XAConnectionFactory factory;
    // The identifiers that are in use, by their numbers.
    private final BitSet used = new BitSet();
    private ConnectionFactory outside;
    // Whether all identifiers were seen to be free since the session began, and those that were
    // given back since then.
    private boolean areSeen;
    private final BitSet left = new BitSet();

    private JmsResource(String name, XAConnectionFactory factory) {
        super(name, 16);
        this.factory = factory;
    }

    /** A broker under a name that stays as long as the log does. */
    public static JmsResource of(String name, XAConnectionFactory factory) {
        return new JmsResource(name, factory);
    }

    @Override
    protected JmsResource self() {
        return this;
    }

    /**
     * What makes the sessions outside of any transaction; there are none where this isn't given.
     */
    public JmsResource outside(ConnectionFactory plain) {
        outside = plain;
        return this;
    }

    /**
     * Connections for programs: in a transaction of the manager each session takes part in it. It
     * is a QueueConnectionFactory and a TopicConnectionFactory too.
     */
    public ConnectionFactory connectionFactory(Manager of) {
        return new PooledConnectionFactory(of, this, outside).front();
    }

    @Override
    public Link connect() throws Fault.Lost {
        int number = take();
        boolean isMade = false;
        try {
            Link made = new JmsLink(connection(number, true), number + 1, patience(), () -> giveBack(number));
            isMade = true;
            return made;
        } catch (JMSException | RuntimeException error) {
            throw new Fault.Lost("no connection to " + name(), error);
        } finally {
            if (!isMade) {
                giveBack(number);
            }
        }
    }

    private synchronized int take() {
        int number = used.nextClearBit(0);
        used.set(number);
        return number;
    }

    private synchronized void giveBack(int number) {
        used.clear(number);
        left.set(number);
    }

    @Override
    public synchronized void startAnew() {
        areSeen = false;
    }

    /** The identifiers of which connections may be there that nobody has. */
    private synchronized BitSet unseen() {
        BitSet found = (BitSet) left.clone();
        if (!areSeen) {
            found.set(0, maxConnections() + 1);
        }
        left.clear();
        return found;
    }

    /** They were looked at, except for these. */
    private synchronized void looked(BitSet unseen) {
        left.or(unseen);
        areSeen |= unseen.isEmpty();
    }

    /**
     * A connection that has its identifier, once an older one of the same is gone; to the broker
     * that it always was, if that is to be seen.
     */
    private XAConnection connection(int number, boolean isToBeSeen) throws JMSException, Fault.Lost {
        String client = label("-") + "-" + number;
        long until = System.nanoTime() + PATIENCE;
        while (true) {
            XAConnection connection = factory.createXAConnection();
            try {
                connection.setClientID(client);
                connection.start();
                if (isToBeSeen) {
                    see(connection);
                }
                return connection;
            } catch (InvalidClientIDException error) {
                connection.close();
                if (System.nanoTime() > until) {
                    throw new Fault.Lost("a connection " + client + " of an earlier manager stays at " + name(), error);
                }
            } catch (JMSException | RuntimeException | Fault.Lost error) {
                connection.close();
                throw error;
            }
            Aside.pause(50);
        }
    }

    private void see(XAConnection connection) throws JMSException, Fault.Lost {
        Known it = known();
        if (it != null) {
            it.see(BrokerIdentity.of(connection, it.identity()), BrokerIdentity.placeOf(factory));
        }
    }

    /**
     * Sees that each identifier is free that isn't kept: then no connection of an earlier manager
     * is there. In a session, of those that were left.
     */
    @Override
    public void endOthers(Set<Long> kept) throws Fault.Lost {
        BitSet unseen = unseen();
        boolean isSeen = false;
        try {
            for (int number = unseen.nextSetBit(0); number >= 0; number = unseen.nextSetBit(number + 1)) {
                if (!kept.contains(number + 1L)) {
                    connection(number, !isSeen).close();
                    isSeen = true;
                }
                unseen.clear(number);
            }
        } catch (JMSException | RuntimeException error) {
            throw new Fault.Lost("no connection to " + name(), error);
        } finally {
            looked(unseen);
        }
    }
}
