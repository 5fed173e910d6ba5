package garterfossil.jdbc;

import static org.junit.Assert.assertEquals;
import static org.junit.Assert.assertNotEquals;
import static org.junit.Assert.assertTrue;

import java.lang.reflect.Proxy;
import java.sql.Connection;
import java.sql.PreparedStatement;
import java.sql.ResultSet;
import java.util.ArrayList;
import java.util.List;
import org.junit.Test;

/** How MariaDB knows the manager's connections. */
public class DialectTest {
    /**
     * A connection to PostgreSQL whose application_name is this: what was set instead is added to
     * the list.
     */
    private static Connection named(String name, List<String> set) {
        ResultSet rows = of(ResultSet.class, (method, words) -> method.equals("next") ? (Object) true : method.equals("getLong") ? (Object) 7L : null);
        PreparedStatement statement = of(PreparedStatement.class, (method, words) -> {
            if (method.equals("setString")) {
                set.add((String) words[1]);
            }
            return method.equals("executeQuery") ? rows : null;
        });
        return of(Connection.class, (method, words) -> method.equals("getClientInfo") ? name : method.equals("prepareStatement") ? statement : null);
    }

    private interface Calls {
        Object made(String method, Object[] words);
    }

    private static <F> F of(Class<F> face, Calls calls) {
        return face.cast(Proxy.newProxyInstance(face.getClassLoader(), new Class<?>[] {face}, (proxy, method, words) -> calls.made(method.getName(), words)));
    }

    @Test
    public void aNameThatAProgramTookAway() throws Exception {
        List<String> set = new ArrayList<>();
        Dialect.POSTGRESQL.labelAgain(named("garterfossil shop bank", set), "garterfossil shop bank");
        assertEquals(List.of(), set);
        Dialect.POSTGRESQL.labelAgain(named("reports", set), "garterfossil shop bank");
        assertEquals(List.of("garterfossil shop bank"), set);
    }

    @Test
    public void namesOfLocksAreShortEnough() {
        // The longest names of a manager and of a resource. MariaDB 10.11 refuses a lock's name of
        // 193 letters (error 1059).
        String label = "garterfossil " + "m".repeat(16) + " " + "r".repeat(64), other = label.substring(1) + "x";
        assertTrue(Dialect.lock(label, 511).length() <= 192);
        assertNotEquals(Dialect.lock(label, 0), Dialect.lock(other, 0));
        assertEquals("garterfossil.61.7", Dialect.lock("a", 7));
    }
}
