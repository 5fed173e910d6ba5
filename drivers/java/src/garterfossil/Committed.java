package garterfossil;

import java.io.IOException;
import java.io.RandomAccessFile;
import java.lang.System.Logger.Level;
import java.nio.file.Files;
import java.nio.file.Path;
import java.util.Arrays;
import java.util.HexFormat;

/**
 * Which transactions were decided to commit lately, in the file PATH-committed beside the log. Once
 * all resources have acknowledged one, its row leaves the log. If one of them lists a branch of it
 * later, that resource was put back to an earlier moment; or the log was.
 *
 * <p>It outlives the program, but isn't synced: what it lacks after a failure of its machine is
 * ended as the log says. The driver in Python has the same file: so many transactions, each in a
 * place by its number, which those of a session take from those of earlier ones.
 */
final class Committed {
    private static final long MOST = 65536;
    private static final int BYTES = 16;
    private static final HexFormat HEX = HexFormat.of();

    private final RandomAccessFile file;

    /**
     * Those of the log at a path: of another one the file may have been, unless it is to be kept.
     */
    Committed(Path log, boolean isKept) throws Fault.Unavailable {
        Path path = beside(log);
        try {
            boolean isMade = !Files.exists(path);
            file = new RandomAccessFile(path.toFile(), "rw");
            if (!isKept) {
                file.setLength(0);
                // Those of another log, which had the same numbers, don't come back.
                file.getFD().sync();
            }
            if (isMade && Files.exists(log)) {
                giveToOwner(log, path);
            }
        } catch (IOException error) {
            throw new Fault.Unavailable(path + " can't be written", error);
        }
    }

    private static Path beside(Path log) {
        return log.resolveSibling(log.getFileName() + "-committed");
    }

    /** What root makes, as by the command, the log's own user goes on with. */
    private static void giveToOwner(Path log, Path path) {
        try {
            Files.setOwner(path, Files.getOwner(log));
        } catch (IOException | UnsupportedOperationException error) {
            Manager.LOG.log(Level.DEBUG, "a file can't be given to the user of the log", error);
        }
    }

    /**
     * Whether the log at a path has decided to commit a transaction lately, for whoever only looks.
     */
    static boolean has(Path log, String gtrid) throws Fault.Unavailable {
        Path path = beside(log);
        if (!Files.exists(path)) {
            return false;
        }
        try (RandomAccessFile file = new RandomAccessFile(path.toFile(), "r")) {
            return has(file, gtrid);
        } catch (IOException error) {
            throw new Fault.Unavailable(path + " can't be read", error);
        }
    }

    private static boolean has(RandomAccessFile file, String gtrid) throws IOException {
        byte[] found = new byte[BYTES];
        seek(file, gtrid);
        return file.read(found) == BYTES && Arrays.equals(found, HEX.parseHex(gtrid));
    }

    private static void seek(RandomAccessFile file, String gtrid) throws IOException {
        file.seek(Long.remainderUnsigned(Long.parseUnsignedLong(gtrid.substring(BYTES), 16), MOST) * BYTES);
    }

    /** It is decided that the transaction commits. */
    synchronized void add(String gtrid) {
        try {
            seek(file, gtrid);
            file.write(HEX.parseHex(gtrid));
        } catch (IOException error) {
            Manager.LOG.log(Level.WARNING, () -> "what is committed can't be noted: " + error.getMessage());
        }
    }

    /** Whether the transaction was decided to commit, as far as that is known still. */
    synchronized boolean has(String gtrid) {
        try {
            return has(file, gtrid);
        } catch (IOException error) {
            return false;
        }
    }

    void close() {
        try {
            file.close();
        } catch (IOException error) {
            Manager.LOG.log(Level.DEBUG, "a file can't be closed", error);
        }
    }
}
