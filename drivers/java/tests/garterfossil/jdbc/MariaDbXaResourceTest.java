package garterfossil.jdbc;

import static org.junit.Assert.assertEquals;
import static org.junit.Assert.assertThrows;
import static org.junit.Assert.assertTrue;

import garterfossil.Logged;
import java.lang.reflect.Proxy;
import java.sql.Connection;
import java.sql.SQLException;
import java.sql.SQLWarning;
import java.sql.Statement;
import java.util.ArrayList;
import java.util.List;
import javax.transaction.xa.XAException;
import javax.transaction.xa.XAResource;
import javax.transaction.xa.Xid;
import org.junit.Test;

/** xa_end and xa_prepare by one statement, and what MariaDB may answer to it. */
public class MariaDbXaResourceTest {
    private static final String TEXT = "BEGIN NOT ATOMIC XA END X'0102',X'03',7; XA PREPARE X'0102',X'03',7; END";

    private final List<String> done = new ArrayList<>();
    /** What the statement fails by, and what XA ROLLBACK is answered; 0 where they don't. */
    private int error, rollback;

    private final Xid xid = new Xid() {
        @Override
        public int getFormatId() {
            return 7;
        }

        @Override
        public byte[] getGlobalTransactionId() {
            return new byte[] {1, 2};
        }

        @Override
        public byte[] getBranchQualifier() {
            return new byte[] {3};
        }
    };

    private interface Call {
        Object made(Object[] words) throws Exception;
    }

    private static <F> F of(Class<F> face, String name, Call call) {
        return face.cast(Proxy.newProxyInstance(face.getClassLoader(), new Class<?>[] {face},
            (proxy, method, words) -> method.getName().equals(name) ? call.made(words) : null));
    }

    private MariaDbXaResource resource() {
        Statement statement = of(Statement.class, "execute", words -> {
            done.add((String) words[0]);
            if (error != 0) {
                throw new SQLException("on purpose", "XAE", error);
            }
            return false;
        });
        XAResource inner = of(XAResource.class, "rollback", words -> {
            done.add("rollback");
            if (rollback != 0) {
                throw new XAException(rollback);
            }
            return null;
        });
        return new MariaDbXaResource(null, Dialect.MARIADB, inner, of(Connection.class, "createStatement", words -> statement));
    }

    private void failsBy(int code, int wanted, String... calls) {
        error = code;
        done.clear();
        assertEquals(wanted, assertThrows(XAException.class, () -> resource().endAndPrepare(xid)).errorCode);
        assertEquals(List.of(calls), done);
    }

    @Test
    public void itIsPrepared() throws Exception {
        assertEquals(XAResource.XA_OK, resource().endAndPrepare(xid));
        assertEquals(List.of(TEXT), done);
    }

    @Test
    public void whatIsGivenUpIsRolledBack() {
        failsBy(1399, XAException.XA_RBDEADLOCK, TEXT, "rollback");
        failsBy(1402, XAException.XA_RBROLLBACK, TEXT, "rollback");
        failsBy(1613, XAException.XA_RBTIMEOUT, TEXT, "rollback");
        failsBy(1614, XAException.XA_RBDEADLOCK, TEXT, "rollback");
        rollback = XAException.XA_RBROLLBACK;
        failsBy(1614, XAException.XA_RBDEADLOCK, TEXT, "rollback");
        // XA PREPARE has rolled it back itself; XA END never does.
        rollback = XAException.XAER_NOTA;
        failsBy(1402, XAException.XA_RBROLLBACK, TEXT, "rollback");
        failsBy(1614, XAException.XAER_RMFAIL, TEXT, "rollback");
    }

    /** An XAResource that answers so to the xa_commit of a branch, which it lists then or not. */
    private MariaDbXaResource answering(int code, boolean isListed) {
        XAResource inner = (XAResource) Proxy.newProxyInstance(getClass().getClassLoader(), new Class<?>[] {XAResource.class},
            (proxy, method, words) -> {
                if (method.getName().equals("commit")) {
                    throw new XAException(code);
                }
                return isListed ? new Xid[] {xid} : new Xid[0];
            });
        return new MariaDbXaResource(null, Dialect.MARIADB, inner, null);
    }

    @Test
    public void aBranchThatOnlyRead() throws Exception {
        // Its connection is gone: MariaDB has nothing of it any more, and had nothing to commit.
        answering(XAException.XA_RBROLLBACK, false).commit(xid, false);
        assertEquals(XAException.XA_RBROLLBACK,
            assertThrows(XAException.class, () -> answering(XAException.XA_RBROLLBACK, true).commit(xid, false)).errorCode);
    }

    @Test
    public void aTableThatKeepsWhatIsRolledBackIsWarnedOf() throws Exception {
        // It may be one that was made since the tables were looked at.
        XAResource inner = of(XAResource.class, "rollback", words -> null);
        try (Logged logged = new Logged()) {
            for (int code : new int[] {1196, 1051}) {
                SQLWarning warning = new SQLWarning("Some non-transactional changed tables couldn't be rolled back", "01000", code);
                new MariaDbXaResource(null, Dialect.MARIADB, inner, of(Connection.class, "getWarnings", words -> warning)).rollback(xid);
            }
            assertEquals(1, logged.said.size());
            assertTrue(logged.said.get(0), logged.said.get(0).contains("7:0102:03 is rolled back, but wrote in a table"));
        }
    }

    @Test
    public void aFatalErrorIsNoAnswer() {
        // XA has it that the branch was rolled back then (1401, XAER_RMERR). It may as well have
        // been committed.
        for (boolean isOnePhase : new boolean[] {false, true}) {
            XAException error = assertThrows(XAException.class, () -> answering(XAException.XAER_RMERR, false).commit(xid, isOnePhase));
            assertEquals(XAException.XAER_RMFAIL, error.errorCode);
        }
    }

    @Test
    public void elseNobodyKnows() {
        failsBy(1397, XAException.XAER_RMFAIL, TEXT);
        failsBy(2013, XAException.XAER_RMFAIL, TEXT);
        rollback = XAException.XAER_RMFAIL;
        failsBy(1402, XAException.XAER_RMFAIL, TEXT, "rollback");
    }
}
