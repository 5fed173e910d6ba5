package garterfossil.jms;

import garterfossil.Aside;
import garterfossil.Front;
import garterfossil.Gate;
import garterfossil.Link;
import garterfossil.Manager;
import java.lang.System.Logger.Level;
import java.lang.reflect.InvocationTargetException;
import java.lang.reflect.Method;
import java.time.Duration;
import java.util.ArrayList;
import java.util.List;
import java.util.concurrent.TimeoutException;
import javax.jms.JMSException;
import javax.jms.XAConnection;
import javax.jms.XASession;
import javax.transaction.xa.XAException;
import javax.transaction.xa.XAResource;

/** A connection to a broker, with one session. */
final class JmsLink implements Link {
    private final XAConnection connection;
    final XASession session;
    private final long number;
    private final Runnable whenClosed;
    private final List<Gate.Work> opened = new ArrayList<>();
    private final XAResource resource = Front.of(XAResource.class, this::bounded);
    private volatile Duration longest;
    private volatile boolean isFailed, isSilent;

    JmsLink(XAConnection connection, long number, Duration patience, Runnable whenClosed) throws JMSException {
        this.connection = connection;
        longest = patience;
        this.number = number;
        this.whenClosed = whenClosed;
        try {
            connection.setExceptionListener(error -> isFailed = true);
            session = connection.createXASession();
        } catch (JMSException | RuntimeException error) {
            connection.close();
            throw error;
        }
    }

    /**
     * A call of XA, which takes as long as the link is bound: a client may wait without end for a
     * broker that is silent.
     */
    private Object bounded(Object front, Method method, Object[] words) throws Throwable {
        try {
            return Aside.within(longest, () -> method.invoke(session.getXAResource(), words), late -> { });
        } catch (InvocationTargetException error) {
            throw error.getCause();
        } catch (TimeoutException error) {
            isSilent = true;
            throw new XAException(XAException.XAER_RMFAIL);
        }
    }

    /** An error was met on it: it isn't used again. */
    void fail() {
        isFailed = true;
    }

    @Override
    public XAResource xaResource() {
        return resource;
    }

    @Override
    public boolean isSame(XAResource other) throws XAException {
        return other.isSameRM(session.getXAResource());
    }

    @Override
    public void bound(Duration duration) {
        longest = duration;
    }

    @Override
    public long number() {
        return number;
    }

    @Override
    public boolean isUsable() {
        return !isFailed;
    }

    /** Something was opened on the session: this closes it. */
    void opened(Gate.Work closing) {
        opened.add(closing);
    }

    @Override
    public boolean reset() {
        try {
            for (Gate.Work closing : opened) {
                closing.cancel();
            }
            opened.clear();
        } catch (Exception error) {
            return false;
        }
        return !isFailed;
    }

    @Override
    public void close() {
        isFailed = true;
        try {
            if (isSilent) {
                Aside.run(this::closeNow);
            } else {
                closeNow();
            }
        } finally {
            // Whoever takes its identifier next waits until the broker has let it go.
            whenClosed.run();
        }
    }

    private void closeNow() {
        try {
            connection.close();
        } catch (JMSException | RuntimeException error) {
            Manager.LOG.log(Level.DEBUG, "a connection can't be closed", error);
        }
    }
}
