package garterfossil;

import java.lang.reflect.InvocationHandler;
import java.lang.reflect.InvocationTargetException;
import java.lang.reflect.Method;
import java.lang.reflect.Proxy;
import java.util.List;

/**
 * Objects that a program has in place of those of a driver: each call of theirs comes to the
 * manager first.
 */
public final class Front {
    private Front() {
    }

    /** An object of these interfaces. It is equal to itself alone. */
    public static Object of(List<? extends Class<?>> faces, InvocationHandler handler) {
        return Proxy.newProxyInstance(Front.class.getClassLoader(), faces.toArray(Class<?>[]::new), (front, method, words) ->
            switch (method.getName()) {
                case "equals" -> front == words[0];
                case "hashCode" -> System.identityHashCode(front);
                default -> handler.invoke(front, method, words);
            });
    }

    /** The same of one interface. */
    public static <T> T of(Class<T> face, InvocationHandler handler) {
        return face.cast(of(List.of(face), handler));
    }

    /** Has a call made at its target, if the gate is open. */
    public static Object through(Gate gate, Gate.Work work, Object target, Method method, Object[] words) throws Throwable {
        gate.enter(work);
        try {
            return direct(target, method, words);
        } finally {
            gate.leave();
        }
    }

    /** Has a call made at its target, and throws what that throws. */
    public static Object direct(Object target, Method method, Object[] words) throws Throwable {
        try {
            return method.invoke(target, words);
        } catch (InvocationTargetException error) {
            throw error.getCause();
        }
    }
}
