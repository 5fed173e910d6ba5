import java.lang.reflect.InvocationTargetException;
import java.lang.reflect.Method;
import java.lang.reflect.Proxy;
import java.sql.Connection;
import java.sql.Statement;
import javax.sql.XAConnection;
import javax.sql.XADataSource;
import javax.transaction.xa.XAResource;

/**
 * A database's XADataSource of which the next call of a name has something done before it or after
 * it.
 */
final class Hooks {
    /** What is done: it gets the connection on which the call is made. */
    interface Hook {
        void run(Connection connection) throws Exception;
    }

    private final XADataSource source;
    private volatile String moment = "";
    private volatile Hook hook;

    Hooks(XADataSource source) {
        this.source = source;
    }

    /** At a moment, as "before prepare" or "after commit". Once. */
    void at(String when, Hook what) {
        hook = what;
        moment = when;
    }

    private void reach(String when, Connection connection) throws Exception {
        if (when.equals(moment)) {
            moment = "";
            hook.run(connection);
        }
    }

    XADataSource source() {
        return (XADataSource) Proxy.newProxyInstance(Hooks.class.getClassLoader(), new Class<?>[] {XADataSource.class}, (proxy, method, words) -> {
            Object made = direct(source, method, words);
            return made instanceof XAConnection ? hooked((XAConnection) made) : made;
        });
    }

    private XAConnection hooked(XAConnection xa) throws Exception {
        Connection plain = xa.getConnection(), connection = hooked(plain);
        XAResource resource = (XAResource) Proxy.newProxyInstance(Hooks.class.getClassLoader(), new Class<?>[] {XAResource.class}, (proxy, method, words) -> {
            reach("before " + method.getName(), plain);
            Object answer = direct(xa.getXAResource(), method, words);
            reach("after " + method.getName(), plain);
            return answer;
        });
        return (XAConnection) Proxy.newProxyInstance(Hooks.class.getClassLoader(), new Class<?>[] {XAConnection.class}, (proxy, method, words) -> {
            switch (method.getName()) {
                case "getXAResource": return resource;
                // A new one would shut the first.
                case "getConnection": return connection;
                default: return direct(xa, method, words);
            }
        });
    }

    /**
     * The connection, whose statements have what comes before and after the calls that they make.
     */
    private Connection hooked(Connection plain) {
        return proxy(Connection.class, plain, (method, words) -> {
            Object made = direct(plain, method, words);
            return method.getName().equals("createStatement") ? proxy(Statement.class, (Statement) made, (inner, text) -> {
                String[] calls = inner.getName().equals("execute") ? calls((String) text[0]) : new String[0];
                return calls.length > 0 ? hooked((Statement) made, calls, inner, text, plain) : direct(made, inner, text);
            }) : made;
        });
    }

    /**
     * The first call that a statement makes, and the last; none, if it makes none. MariaDB gets
     * xa_end and xa_prepare by one.
     */
    private static String[] calls(String text) {
        return text.startsWith("BEGIN NOT ATOMIC XA END") ? new String[] {"end", "prepare"}
            : text.startsWith("PREPARE TRANSACTION") ? new String[] {"prepare", "prepare"}
            : text.startsWith("COMMIT PREPARED") ? new String[] {"commit", "commit"} : new String[0];
    }

    private Object hooked(Statement statement, String[] calls, Method method, Object[] text, Connection plain) throws Throwable {
        reach("before " + calls[0], plain);
        Object answer = direct(statement, method, text);
        reach("after " + calls[1], plain);
        return answer;
    }

    private interface Calls {
        Object made(Method method, Object[] words) throws Throwable;
    }

    private static <F> F proxy(Class<F> face, F plain, Calls calls) {
        return face.cast(Proxy.newProxyInstance(Hooks.class.getClassLoader(), new Class<?>[] {face},
            (proxy, method, words) -> calls.made(method, words)));
    }

    private static Object direct(Object target, Method method, Object[] words) throws Throwable {
        try {
            return method.invoke(target, words);
        } catch (InvocationTargetException error) {
            throw error.getCause();
        }
    }
}
