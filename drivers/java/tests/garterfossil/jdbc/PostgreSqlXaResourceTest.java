package garterfossil.jdbc;

import static org.junit.Assert.assertEquals;
import static org.junit.Assert.assertThrows;
import static org.junit.Assert.assertTrue;

import java.lang.reflect.Proxy;
import java.sql.Connection;
import java.sql.ResultSet;
import java.sql.SQLException;
import java.sql.Statement;
import java.util.ArrayList;
import java.util.HexFormat;
import java.util.Iterator;
import java.util.List;
import java.util.Map;
import javax.transaction.xa.XAException;
import javax.transaction.xa.XAResource;
import javax.transaction.xa.Xid;
import org.junit.Test;

/** How branches are named at PostgreSQL, and what it may answer to their end. */
public class PostgreSqlXaResourceTest {
    /**
     * The names of one branch: the coordinator's text (docs/SERVE.md), and what PostgreSQL's own
     * driver makes of it.
     */
    private static final String NAME = "7:73686f700000000000000001000000000000000f:0000000100000000", OLDER = "7_c2hvcAAAAAAAAAABAAAAAAAAAA8=_AAAAAQAAAAA=";

    private final List<String> done = new ArrayList<>();
    /** What a statement that begins so fails by: a state of SQL. */
    private Map<String, String> failing = Map.of();
    private List<String> listed = List.of();

    private final Xid xid = PreparedNames.parse(NAME).orElseThrow();

    private interface Call {
        Object made(String name, Object[] words) throws Exception;
    }

    private static <F> F of(Class<F> face, Call call) {
        return face.cast(Proxy.newProxyInstance(face.getClassLoader(), new Class<?>[] {face},
            (proxy, method, words) -> call.made(method.getName(), words)));
    }

    private Object does(String text) throws SQLException {
        done.add(text);
        for (Map.Entry<String, String> it : failing.entrySet()) {
            if (text.startsWith(it.getKey())) {
                throw new SQLException("on purpose", it.getValue());
            }
        }
        return null;
    }

    private ResultSet rows() {
        Iterator<String> each = listed.iterator();
        return of(ResultSet.class, (name, words) -> name.equals("next") ? (Object) each.hasNext() : name.equals("getString") ? each.next() : null);
    }

    private final Connection connection = of(Connection.class, (name, words) -> {
        switch (name) {
            case "createStatement":
                return of(Statement.class, (inner, text) -> {
                    if (inner.equals("execute")) {
                        does((String) text[0]);
                        return false;
                    }
                    return inner.equals("executeQuery") ? rows() : null;
                });
            case "setAutoCommit": return does("setAutoCommit " + words[0]);
            case "commit": case "rollback": return does(name);
            default: return null;
        }
    });

    private PostgreSqlXaResource begun() throws XAException {
        PostgreSqlXaResource resource = new PostgreSqlXaResource(null, Dialect.POSTGRESQL, null, connection);
        resource.start(xid, XAResource.TMNOFLAGS);
        resource.end(xid, XAResource.TMSUCCESS);
        done.clear();
        return resource;
    }

    @Test
    public void aBranchHasTheCoordinatorsText() throws Exception {
        PostgreSqlXaResource resource = begun();
        assertEquals(XAResource.XA_OK, resource.prepare(xid));
        resource.commit(xid, false);
        done.removeIf(text -> text.startsWith("SELECT"));
        assertEquals(List.of("PREPARE TRANSACTION '" + NAME + "'", "setAutoCommit true", "COMMIT PREPARED '" + NAME + "'"), done);
        assertTrue(!resource.hasBranch());
    }

    @Test
    public void aBranchOfAnOlderDriverIsFoundAndEnded() throws Exception {
        listed = List.of(OLDER, "7:AB:00", "7_AA_AA==", "another's", "7:00");
        PostgreSqlXaResource resource = new PostgreSqlXaResource(null, Dialect.POSTGRESQL, null, connection);
        Xid[] found = resource.recover(XAResource.TMSTARTRSCAN);
        assertEquals(1, found.length);
        assertEquals("73686f700000000000000001000000000000000f", HexFormat.of().formatHex(found[0].getGlobalTransactionId()));
        assertEquals(xid, found[0]);
        done.clear();
        failing = Map.of("COMMIT PREPARED '7:", "42704", "ROLLBACK PREPARED '7:", "42704");
        resource.commit(xid, false);
        resource.rollback(xid);
        assertEquals(List.of("COMMIT PREPARED '" + NAME + "'", "COMMIT PREPARED '" + OLDER + "'", "ROLLBACK PREPARED '" + NAME + "'",
            "ROLLBACK PREPARED '" + OLDER + "'"), done);
    }

    @Test
    public void oneThatIsNotThere() {
        failing = Map.of("COMMIT PREPARED", "42704", "ROLLBACK PREPARED", "55000");
        PostgreSqlXaResource resource = new PostgreSqlXaResource(null, Dialect.POSTGRESQL, null, connection);
        assertEquals(XAException.XAER_NOTA, assertThrows(XAException.class, () -> resource.commit(xid, false)).errorCode);
        // It is busy with another connection.
        assertEquals(XAException.XAER_RMFAIL, assertThrows(XAException.class, () -> resource.rollback(xid)).errorCode);
    }

    private void votes(String state, int wanted) throws Exception {
        failing = Map.of("PREPARE", state, "commit", state);
        for (boolean isOnePhase : new boolean[] {false, true}) {
            PostgreSqlXaResource resource = begun();
            XAException error = assertThrows(XAException.class, () -> {
                if (isOnePhase) {
                    resource.commit(xid, true);
                } else {
                    resource.prepare(xid);
                }
            });
            assertEquals(state, wanted, error.errorCode);
            assertEquals(state, wanted != XAException.XAER_RMFAIL, done.contains("rollback"));
        }
    }

    @Test
    public void whyItRollsBack() throws Exception {
        // docs/SERVE.md, "Two databases".
        votes("40P01", XAException.XA_RBDEADLOCK);
        votes("40001", XAException.XA_RBTRANSIENT);
        votes("55P03", XAException.XA_RBTIMEOUT);
        votes("57014", XAException.XA_RBTIMEOUT);
        votes("23505", XAException.XA_RBINTEGRITY);
        votes("42710", XAException.XA_RBOTHER);
        votes("55000", XAException.XA_RBOTHER);
        // The connection is lost, or nobody knows what it was.
        votes("08006", XAException.XAER_RMFAIL);
        votes("57P01", XAException.XAER_RMFAIL);
        votes("XX000", XAException.XAER_RMFAIL);
    }
}
