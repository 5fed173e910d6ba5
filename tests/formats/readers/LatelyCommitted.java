package garterfossil;

import java.nio.file.Path;

/** Prints of each transaction whether the file beside a log has it as committed: {@code LatelyCommitted LOG GTRID ..}. */
final class LatelyCommitted {
    private LatelyCommitted() {
    }

    public static void main(String[] words) throws Fault {
        Committed it = new Committed(Path.of(words[0]), true);
        for (int at = 1; at < words.length; at++) {
            System.out.println(words[at] + " " + it.has(words[at]));
        }
        it.close();
    }
}
