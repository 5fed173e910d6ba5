package garterfossil;

import java.lang.reflect.Field;
import java.nio.file.Path;
import java.util.Map;

/** What the driver in Java reads from the file beside a log: Beside LOG NAME. */
final class Beside {
    private Beside() {
    }

    private static Object of(Object it, String name) throws ReflectiveOperationException {
        Field field = it.getClass().getDeclaredField(name);
        field.setAccessible(true);
        return field.get(it);
    }

    public static void main(String[] words) throws Exception {
        Identities found = new Identities(Path.of(words[0]), words[1], false);
        Object shut = of(found, "shut");
        System.out.println(of(found, "manager") + " " + of(found, "incarnation") + " [" + (shut == null ? "" : shut) + "]");
        for (Map.Entry<?, ?> it : ((Map<?, ?>) of(found, "known")).entrySet()) {
            System.out.println(it.getKey() + " " + of(it.getValue(), "identity") + " [" + of(it.getValue(), "at") + "]");
        }
    }
}
