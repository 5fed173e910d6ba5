package garterfossil;

import java.util.Collections;
import java.util.LinkedHashMap;
import java.util.Map;
import java.util.Set;

/** The things that were added last, so many at most. Any thread may ask. */
final class Recent<T> {
    private final Set<T> kept;

    Recent(int most) {
        // What is added again is the last of them.
        kept = Collections.synchronizedSet(Collections.newSetFromMap(new LinkedHashMap<>(16, 0.75f, true) {
            private static final long serialVersionUID = 1;

            @Override
            protected boolean removeEldestEntry(Map.Entry<T, Boolean> eldest) {
                return size() > most;
            }
        }));
    }

    void add(T thing) {
        kept.add(thing);
    }

    boolean contains(T thing) {
        return kept.contains(thing);
    }
}
