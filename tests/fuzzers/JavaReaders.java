package garterfossil;

import java.io.IOException;
import java.lang.reflect.Method;
import java.nio.charset.StandardCharsets;
import java.nio.file.Files;
import java.nio.file.Path;
import java.nio.file.StandardCopyOption;
import java.util.Arrays;
import java.util.Map;
import java.util.Random;
import java.util.concurrent.Callable;
import java.util.concurrent.ExecutionException;
import java.util.concurrent.FutureTask;
import java.util.concurrent.TimeUnit;
import java.util.concurrent.TimeoutException;
import java.util.logging.Level;
import java.util.logging.Logger;

/**
 * What the driver in Java reads, each changed by chance: the properties of its command, the file beside a log, identifiers as a database lists them, and
 * what a coordinator says. {@code JavaReaders SECONDS SEED FOLDER settings|beside|branches|replies}. It prints each input that ends in another way than
 * is promised, or not in a minute, and how many there were.
 */
final class JavaReaders {
    private static final String SETTINGS = "log = /nowhere/decisions.db\nprogram = /nowhere/xatm\n"
        + "resource.bank.class = garterfossil.JavaReaders$Source\nresource.bank.url = jdbc:postgresql:bank\nresource.bank.loginTimeout = 3\n";
    private static final String BESIDE = "{\"version\": 1, \"manager\": \"shop-1\", \"shut\": \"a \\\"log\\\" \\u00e4\", \"incarnation\": 12,\n"
        + " \"databases\": [{\"number\": 0, \"at\": \"jdbc:postgresql:bank\", \"identity\": \"postgresql 1 2\"},\n"
        + " {\"number\": 1, \"at\": \"jdbc:mariadb:stock\", \"identity\": \"mariadb 5f\"}]}\n";
    private static final String BRANCH = "7:73686f702d3100000000000000070000000000000001:0000000000000000";
    private static final String[] PIECES = {"\0", "\u00e9", "\n", "\\", "\\u", "\"", "{", "[", "]", "}", ",", ":", "-", "null", "9223372036854775808", "1e9", "=", "."};

    private JavaReaders() {
    }

    /** Nothing is changed more than it takes to be wrong. */
    private static byte[] mutated(Random chance, String text) {
        StringBuilder made = new StringBuilder(text);
        for (int times = 1 << chance.nextInt(5); times > 0; times--) {
            int at = chance.nextInt(made.length() + 1), end = Math.min(made.length(), at + (1 << chance.nextInt(6)));
            switch (chance.nextInt(4)) {
                case 0 -> made.delete(at, end);
                case 1 -> made.insert(at, PIECES[chance.nextInt(PIECES.length)].repeat(chance.nextInt(8) == 0 ? 20_000 : 1));
                case 2 -> made.insert(chance.nextInt(made.length() + 1), made.substring(at, end).repeat(chance.nextInt(3) + 1));
                default -> made.replace(at, Math.min(made.length(), at + 1), String.valueOf((char) chance.nextInt(300)));
            }
        }
        byte[] bytes = made.toString().getBytes(chance.nextInt(9) == 0 ? StandardCharsets.ISO_8859_1 : StandardCharsets.UTF_8);
        return chance.nextInt(5) == 0 ? Arrays.copyOf(bytes, chance.nextInt(bytes.length + 1)) : bytes;
    }

    private static void readsBeside(Path folder) throws Exception {
        try {
            new Identities(folder.resolve("it.db"), "shop-1", false);
            Object found = Json.read(Files.readString(folder.resolve("it.db-databases")));
            if (!Json.read(Json.write(found)).equals(found)) {
                throw new AssertionError("what is written is read otherwise");
            }
        } catch (Fault | IOException promised) {
            // It is refused.
        }
    }

    /** An identifier is refused, or it is spelled again as it was. */
    private static void readsBranches(Path file) throws Exception {
        String text = Files.readString(file, StandardCharsets.ISO_8859_1);
        try {
            if (!BranchXid.parse(text).toString().equalsIgnoreCase(text)) {
                throw new AssertionError("an identifier is read as another one");
            }
        } catch (IllegalArgumentException promised) {
            // It is refused.
        }
        Method parse = Class.forName("garterfossil.jdbc.PreparedNames").getDeclaredMethod("parse", String.class);
        parse.setAccessible(true);
        parse.invoke(null, text);
    }

    private static void readsSettings(Path folder) {
        int status = Command.run(new String[] {"status", folder.resolve("settings").toString()});
        if (status != 2) {
            throw new AssertionError("status " + status);
        }
    }

    private static void reads(String kind, Path folder, Path file) throws Exception {
        switch (kind) {
            case "settings": readsSettings(folder); break;
            case "beside": readsBeside(folder); break;
            case "branches": readsBranches(file); break;
            default: JavaReplies.read(Files.readAllBytes(file), folder);
        }
    }

    public static void main(String[] words) throws Exception {
        Logger.getLogger("").setLevel(Level.OFF);
        System.setErr(new java.io.PrintStream(java.io.OutputStream.nullOutputStream()));
        Random chance = new Random(Long.parseLong(words[1]));
        Path folder = Path.of(words[2]);
        String kind = words[3], base = Map.of("settings", SETTINGS, "beside", BESIDE, "branches", BRANCH, "replies", JavaReplies.SAID).get(kind);
        Path file = folder.resolve(kind.equals("beside") ? "it.db-databases" : kind);
        long inputs = 0, failed = 0, until = System.nanoTime() + (long) (Double.parseDouble(words[0]) * 1e9);
        for (; System.nanoTime() < until; inputs++) {
            Files.write(file, mutated(chance, base));
            Throwable error = inTime(() -> {
                reads(kind, folder, file);
                return null;
            });
            if (error != null) {
                failed++;
                Path kept = folder.resolve("failed-" + words[1] + "-" + failed + "-" + kind);
                Files.copy(file, kept, StandardCopyOption.REPLACE_EXISTING);
                String text = String.valueOf(error.getMessage());
                System.out.println("failed: " + kept + ": " + error.getClass().getName() + ": " + text.substring(0, Math.min(200, text.length())));
            }
        }
        System.out.println(inputs + " inputs, " + failed + " failed");
        System.exit(0);
    }

    /** Seconds of the clock after which an input is taken for one that doesn't end: a machine with much to do may leave it no processor for some. */
    private static final long MOST_SECONDS = 600;

    /** What an input ends in on a thread of its own, which one that doesn't end keeps; null if it ends well. */
    private static Throwable inTime(Callable<Void> input) throws InterruptedException {
        FutureTask<Void> task = new FutureTask<>(input);
        Thread thread = new Thread(task, "input");
        thread.setDaemon(true);
        thread.start();
        try {
            task.get(MOST_SECONDS, TimeUnit.SECONDS);
            return null;
        } catch (ExecutionException error) {
            return error.getCause();
        } catch (TimeoutException error) {
            return error;
        }
    }

    /** A source that is reached nowhere. */
    public static final class Source implements javax.sql.XADataSource {
        private String url;

        public void setUrl(String url) {
            this.url = url;
        }

        @Override
        public javax.sql.XAConnection getXAConnection() throws java.sql.SQLException {
            throw new java.sql.SQLException("nothing is at " + url);
        }

        @Override
        public javax.sql.XAConnection getXAConnection(String user, String password) throws java.sql.SQLException {
            return getXAConnection();
        }

        @Override
        public java.io.PrintWriter getLogWriter() {
            return null;
        }

        @Override
        public void setLogWriter(java.io.PrintWriter writer) {
            // Nothing is written.
        }

        @Override
        public void setLoginTimeout(int seconds) {
            // Nothing is waited for.
        }

        @Override
        public int getLoginTimeout() {
            return 0;
        }

        @Override
        public java.util.logging.Logger getParentLogger() {
            return Logger.getGlobal();
        }
    }
}
