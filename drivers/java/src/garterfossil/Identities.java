package garterfossil;

import java.io.IOException;
import java.lang.System.Logger.Level;
import java.nio.ByteBuffer;
import java.nio.channels.FileChannel;
import java.nio.charset.StandardCharsets;
import java.nio.file.Files;
import java.nio.file.Path;
import java.nio.file.StandardCopyOption;
import java.nio.file.StandardOpenOption;
import java.util.ArrayList;
import java.util.LinkedHashMap;
import java.util.List;
import java.util.Map;
import java.util.Set;
import java.util.TreeMap;
import java.util.concurrent.ConcurrentHashMap;

/**
 * Which databases a log belongs to. Each calls itself by something that no other one has, and the
 * file PATH-databases beside the log keeps that from its first use: another database in its place
 * would be asked about branches that it never had, and would answer that there are none.
 *
 * <p>The file is the same as that of the driver in Python, so that both may use one log. It keeps
 * the last session's number, too: a log that is older than it would roll back what was decided
 * since.
 */
final class Identities {
    private static final long VERSION = 1;

    private record Entry(String at, String identity) {
    }

    private final Path log, file;
    private final String manager;
    private final Map<Integer, Entry> known = new TreeMap<>();
    private final Map<Integer, String> wrong = new TreeMap<>();
    // Those that call themselves by nothing, of which that was said.
    private final Set<Integer> unknown = ConcurrentHashMap.newKeySet();
    private boolean areKept;
    private long incarnation;
    private String shut;

    /**
     * Those of the log at a path, of the manager of this name. A new log belongs to no database
     * yet.
     */
    Identities(Path log, String manager, boolean isNew) throws Fault.Unavailable {
        this.log = log;
        this.manager = manager;
        file = log.resolveSibling(log.getFileName() + "-databases");
        if (!Files.exists(file)) {
            if (!isNew) {
                Manager.LOG.log(Level.WARNING, () -> file + " is missing, so it is made anew: nobody knows whether the databases are those"
                    + " that the log had before");
            }
            return;
        }
        Map<?, ?> found = read();
        if (isNew || !manager.equals(found.get("manager"))) {
            Manager.LOG.log(Level.WARNING, () -> "the log of " + found.get("manager") + " is gone from " + log
                + ": what it had prepared is left alone");
            return;
        }
        take(found);
        areKept = true;
    }

    /** Whether what stands beside the log is of this one. */
    boolean areKept() {
        return areKept;
    }

    private Map<?, ?> read() throws Fault.Unavailable {
        try {
            if (!(Json.read(Files.readString(file)) instanceof Map<?, ?> found)) {
                throw new IllegalArgumentException("it is no map");
            }
            if (!Long.valueOf(VERSION).equals(found.get("version"))) {
                throw new IllegalArgumentException("it is of another version");
            }
            part(found, "manager", String.class);
            return found;
        } catch (IOException | RuntimeException error) {
            throw unreadable(error);
        }
    }

    /** What a map has by this name. */
    private static <T> T part(Map<?, ?> found, String name, Class<T> kind) {
        if (!kind.isInstance(found.get(name))) {
            throw new IllegalArgumentException("\"" + name + "\" is missing, or isn't what it is to be");
        }
        return kind.cast(found.get(name));
    }

    private Fault.Unavailable unreadable(Exception error) {
        return new Fault.Unavailable(file + " can't be read (" + error.getMessage() + "): it says which databases the log belongs to. If they"
            + " are surely the same, remove it");
    }

    private void take(Map<?, ?> found) throws Fault.Unavailable {
        try {
            for (Object it : part(found, "databases", List.class)) {
                if (!(it instanceof Map<?, ?> entry)) {
                    throw new IllegalArgumentException("one of the \"databases\" is no map");
                }
                known.put(Math.toIntExact(part(entry, "number", Long.class)),
                    new Entry(part(entry, "at", String.class), part(entry, "identity", String.class)));
            }
            shut = found.get("shut") == null ? null : part(found, "shut", String.class);
            incarnation = found.get("incarnation") == null ? 0 : part(found, "incarnation", Long.class);
        } catch (RuntimeException error) {
            throw unreadable(error);
        }
    }

    // ** what the databases are

    /** What is known of the resource of a number. */
    Known of(int number, String name) {
        return new Known() {
            @Override
            public String identity() {
                synchronized (Identities.this) {
                    return known.containsKey(number) ? known.get(number).identity : null;
                }
            }

            @Override
            public void see(String identity, String at) throws Fault.Lost {
                if (identity != null) {
                    Identities.this.see(number, name, identity, at);
                } else if (unknown.add(number)) {
                    Manager.LOG.log(Level.WARNING, () -> name + ", at " + at + ", has nothing by which it could be known again: if another one is put in"
                        + " its place, nobody notices");
                }
            }
        };
    }

    /** The same, for one who only looks: null if nothing is known, and nothing is kept. */
    synchronized Known onlySeen(int number, String name) {
        return known.containsKey(number) ? of(number, name) : null;
    }

    private synchronized void see(int number, String name, String identity, String at) throws Fault.Lost {
        Entry before = known.get(number);
        if (before == null) {
            known.put(number, new Entry(at, identity));
            write();
        } else if (before.identity.equals(identity)) {
            wrong.remove(number);
        } else {
            String text = other(number, name, before, identity, at);
            wrong.put(number, text);
            throw new Fault.Lost(text, null);
        }
    }

    private String other(int number, String name, Entry before, String identity, String at) {
        StringBuilder text = new StringBuilder(name + " isn't the one that the log " + log + " belongs to: at " + at + " is " + identity
            + ", and it was " + before.identity + ", reached at " + before.at + ".");
        known.forEach((place, entry) -> {
            if (place != number && entry.identity.equals(identity)) {
                text.append(" That one is resource ").append(place).append(" of this log: they have changed places.");
            }
        });
        return text + " Nothing was asked of it. Put the right one back; if its data were moved, and nothing is in doubt, remove " + file;
    }

    /**
     * Why the resource of a number isn't the one that it was, as its last connection told; null if
     * it is, or nobody knows.
     */
    synchronized String wrong(int number) {
        return wrong.get(number);
    }

    // ** a log that nobody is to use

    /** Sees that nobody has to look at the databases first. */
    synchronized void seeOpen() throws Fault.Unavailable {
        if (shut != null) {
            throw new Fault.Unavailable(shut + ". Look at it, and then remove the line \"shut\" from " + file
                + ". If the log is shut itself, xatm log --open " + log + " opens it");
        }
    }

    /**
     * No session is to begin over the log until somebody has looked, also in another run of the
     * program.
     */
    synchronized void shut(String why) {
        shut = why;
        try {
            write();
        } catch (Fault.Lost error) {
            Manager.LOG.log(Level.ERROR, error.getMessage());
        }
    }

    /** A session begins. Sees that the log isn't older than one that was used. */
    synchronized void begin(long next) throws Fault.Unavailable {
        if (next <= incarnation) {
            shut("the log " + log + " is older than it was: its session " + next + " begins, and session " + incarnation
                + " was there already. It would roll back what was decided since. Put the right one back");
            seeOpen();
        }
        incarnation = next;
        try {
            write();
        } catch (Fault.Lost error) {
            throw new Fault.Unavailable(error.getMessage());
        }
    }

    /** Writes the file anew, whole or not at all. */
    private void write() throws Fault.Lost {
        List<Object> entries = new ArrayList<>();
        known.forEach((number, entry) -> entries.add(new LinkedHashMap<>(Map.of("number", number, "at", entry.at, "identity", entry.identity))));
        Map<String, Object> found = new LinkedHashMap<>();
        found.put("version", VERSION);
        found.put("manager", manager);
        found.put("incarnation", incarnation);
        found.put("databases", entries);
        if (shut != null) {
            found.put("shut", shut);
        }
        try {
            Path made = file.resolveSibling(file.getFileName() + "-new");
            try (FileChannel channel = FileChannel.open(made, StandardOpenOption.CREATE, StandardOpenOption.TRUNCATE_EXISTING, StandardOpenOption.WRITE)) {
                ByteBuffer bytes = ByteBuffer.wrap((lines(Json.write(found)) + "\n").getBytes(StandardCharsets.UTF_8));
                while (bytes.hasRemaining()) {
                    channel.write(bytes);
                }
                channel.force(true);
            }
            Files.move(made, file, StandardCopyOption.ATOMIC_MOVE);
            try (FileChannel folder = FileChannel.open(file.toAbsolutePath().getParent(), StandardOpenOption.READ)) {
                folder.force(true);
            }
        } catch (IOException error) {
            throw new Fault.Lost(file + " can't be written", error);
        }
    }

    /** A line for each thing, so that somebody can remove one. */
    private static String lines(String text) {
        return text.replaceFirst("\\{", "{\n ").replaceAll(", (?=\"(manager|incarnation|databases|shut)\": )", ",\n ").replaceFirst("}$", "\n}");
    }

}
