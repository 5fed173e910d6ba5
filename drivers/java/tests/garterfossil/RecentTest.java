package garterfossil;

import static org.junit.Assert.assertFalse;
import static org.junit.Assert.assertTrue;

import org.junit.Test;

/** What was rolled back lately: a session may go on for years. */
public class RecentTest {
    @Test
    public void theOldestIsForgotten() {
        Recent<Integer> recent = new Recent<>(3);
        for (int number : new int[] {1, 2, 3, 1, 4}) {
            recent.add(number);
        }
        assertFalse(recent.contains(2));
        assertTrue(recent.contains(3) && recent.contains(1) && recent.contains(4));
    }
}
