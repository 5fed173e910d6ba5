package garterfossil;

import java.io.ByteArrayInputStream;
import java.io.IOException;
import java.io.InputStream;
import java.io.OutputStream;
import java.nio.file.Files;
import java.nio.file.Path;
import java.time.Duration;
import java.util.concurrent.TimeUnit;

/** What a coordinator says to a manager of two resources, which recovers them and commits a transaction over both. */
final class JavaReplies {
    private static final String GTRID = "0000000000000002000000000000000";
    /** A session, as it is asked then. */
    static final String SAID = "protocol 1 version 1.0.0 name shop-1 rms a b\nrestarted 2 0 0\nrecover 32 TMSTARTRSCAN\nrecover 32 TMSTARTRSCAN\n"
        + "xa_rollback 7:73686f702d3100000000000000010000000000000001:0000000100000000\nrecovered\nrecovered owed 1\nlater\n"
        + "started next " + GTRID + "1\njoined\nprepare 0 1\ncommit 0 1\ncommitted next " + GTRID + "2\nrolled-back 102 0 owed 1 mixed 0 7 next "
        + GTRID + "3\nstrange 7:73686f702d3100000000000000010000000000000001:0000000100000000\ndue 0 1\nbye\n";

    private JavaReplies() {
    }

    static void read(byte[] said, Path folder) throws Exception {
        Files.deleteIfExists(folder.resolve("replies.db-databases"));
        StandInResource a = new StandInResource("a"), b = new StandInResource("b");
        try (Manager manager = Manager.over(folder.resolve("replies.db")).starter(words -> new Sayer(said)).threads(2).patience(Duration.ofMillis(300))
            .grace(Duration.ofMillis(100)).resource(a).resource(b).start()) {
            GlobalTransaction transaction = manager.begin(Duration.ofSeconds(2));
            transaction.enlist(a);
            transaction.enlist(b);
            transaction.commit();
        } catch (Fault promised) {
            seeTold(promised);
        }
    }

    /** A reply that is none is told as such, and not as what Java calls it. */
    private static void seeTold(Throwable error) {
        String text = String.valueOf(error.getMessage());
        if (text.contains("java.lang.") && !text.contains("IllegalStateException") && !text.contains("IllegalArgumentException")) {
            throw new AssertionError(text);
        }
    }

    /** A process that says a line for each that it is told, and the first two by itself; then it ends. */
    private static final class Sayer extends Process {
        private final byte[] said;
        private int at, mayBeSaid = 2;
        private boolean isOver;

        Sayer(byte[] said) {
            this.said = said;
        }

        private synchronized void hear(byte[] bytes, int from, int count) {
            for (int i = from; i < from + count; i++) {
                mayBeSaid += bytes[i] == '\n' ? 1 : 0;
            }
            notifyAll();
        }

        /** The next line, once it may be said; -1 at the end. */
        private synchronized int say(byte[] to, int from, int most) throws InterruptedException {
            while (mayBeSaid == 0 && !isOver) {
                wait();
            }
            if (isOver || at == said.length) {
                return -1;
            }
            int stop = at;
            while (stop < said.length && stop - at < most && (stop == at || said[stop - 1] != '\n')) {
                stop++;
            }
            int count = stop - at;
            mayBeSaid -= said[stop - 1] == '\n' ? 1 : 0;
            System.arraycopy(said, at, to, from, count);
            at = stop;
            return count;
        }

        @Override
        public OutputStream getOutputStream() {
            return new OutputStream() {
                @Override
                public void write(int one) {
                    hear(new byte[] {(byte) one}, 0, 1);
                }

                @Override
                public void write(byte[] bytes, int from, int count) {
                    hear(bytes, from, count);
                }
            };
        }

        @Override
        public InputStream getInputStream() {
            return new InputStream() {
                @Override
                public int read() throws IOException {
                    byte[] one = new byte[1];
                    return read(one, 0, 1) < 0 ? -1 : one[0] & 0xff;
                }

                @Override
                public int read(byte[] to, int from, int most) throws IOException {
                    try {
                        return say(to, from, most);
                    } catch (InterruptedException error) {
                        throw new IOException(error);
                    }
                }
            };
        }

        @Override
        public InputStream getErrorStream() {
            return new ByteArrayInputStream(new byte[0]);
        }

        @Override
        public int waitFor() {
            return 0;
        }

        @Override
        public boolean waitFor(long time, TimeUnit unit) {
            return true;
        }

        @Override
        public synchronized boolean isAlive() {
            return !isOver;
        }

        @Override
        public int exitValue() {
            return 0;
        }

        @Override
        public synchronized void destroy() {
            isOver = true;
            notifyAll();
        }

        @Override
        public Process destroyForcibly() {
            destroy();
            return this;
        }
    }
}
