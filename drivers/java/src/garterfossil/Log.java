package garterfossil;

import java.io.IOException;
import java.io.OutputStream;
import java.lang.System.Logger.Level;
import java.nio.charset.StandardCharsets;
import java.nio.file.Files;
import java.nio.file.Path;
import java.security.SecureRandom;
import java.time.Duration;
import java.util.ArrayList;
import java.util.List;
import java.util.Map;
import java.util.TreeMap;
import java.util.concurrent.CompletableFuture;
import java.util.concurrent.TimeUnit;
import java.util.regex.Matcher;
import java.util.regex.Pattern;
import java.util.stream.Collectors;

/**
 * What a log holds, as {@code xatm log} prints it: the names that it keeps of its manager and of
 * the resources, by their numbers, which stand in the identifiers of branches and never change
 * (docs/LOG.md); its last session; and its rows.
 *
 * <p>A new log gets a name that no other log ever had: so what an earlier log left at the resources
 * is another manager's, and stays.
 */
final class Log {
    private static final String LETTERS = "abcdefghijklmnopqrstuvwxyz0123456789";
    /** The name of a manager has so many letters at most, and of these so many are drawn. */
    static final int LONGEST = 16, DRAWN = 6;
    /** A look that takes longer is given up. */
    private static final Duration LONGEST_LOOK = Duration.ofSeconds(60);
    private static final Pattern EXPLAINED = Pattern.compile(" +([0-9]+:[0-9a-f]+:[0-9a-f]+) at resource manager .*");

    /** The manager's, which is empty if the log was made without one. */
    final String manager;
    final List<String> resources;
    /** The number of the last session; 0 if there was none. */
    final long incarnation;
    /**
     * The transactions that are decided to commit, each with the branches that its row waits for,
     * if these were asked for.
     */
    final Map<String, List<BranchXid>> decisions = new TreeMap<>();
    /** What resources ended by themselves, a line for each. */
    final List<String> heuristics = new ArrayList<>();
    /** Whether a program has it. */
    final boolean isInUse;

    private Log(String manager, List<String> resources, long incarnation, boolean isInUse) {
        this.manager = manager;
        this.resources = new ArrayList<>(resources);
        this.incarnation = incarnation;
        this.isInUse = isInUse;
    }

    /**
     * The log in the file, with the branches that its rows wait for if it is to be explained; or
     * what a new one gets.
     */
    static Log of(Path log, Coordinator.Starter starter, String program, String given, List<Resource> resources, boolean isExplained) throws Fault {
        Log kept = isThere(log) ? read(log, starter, program, isExplained) : drawn(log, given, resources);
        kept.seeManager(log, given);
        kept.add(resources.stream().map(Resource::name).toList(), log);
        return kept;
    }

    /**
     * Resources that the log doesn't know come after those that it knows, and it keeps their names
     * from its next start on.
     */
    private void add(List<String> names, Path log) throws Fault.Unavailable {
        List<String> added = names.stream().filter(name -> !resources.contains(name)).toList();
        if (!added.isEmpty() && !names.containsAll(resources)) {
            // It may be one of them, by another name.
            String name = added.get(0);
            throw new Fault.Unavailable("the log " + log + " is that of the resources " + resources + ", and " + name + " isn't one of them. To"
                + " add one, give the manager the others, too; if one of them is called " + name + " now, stop the program, and say xatm log"
                + " --rename-rm OLD " + name + " " + log);
        }
        resources.addAll(added);
    }

    /**
     * Sees that a log that was used is still there: one made in its place would have its name, and
     * roll back what it decided.
     */
    static void seeThere(Path log) throws Fault.Unavailable {
        if (!isThere(log)) {
            throw new Fault.Unavailable("the log " + log + " is missing or empty, and was used a moment ago. Put it back");
        }
    }

    static boolean isThere(Path log) throws Fault.Unavailable {
        try {
            return Files.exists(log) && Files.size(log) > 0;
        } catch (IOException error) {
            throw new Fault.Unavailable("the log can't be looked at", error);
        }
    }

    /** Warns of a place of a log at which it isn't safe, as far as the system tells. */
    static void seePlace(Path log) {
        try {
            String kind = Files.getFileStore(log.toAbsolutePath().getParent()).type(), danger = dangerOf(kind);
            if (!danger.isEmpty()) {
                Manager.LOG.log(Level.WARNING, () -> "the log " + log + " lies on " + kind + ": " + danger);
            }
        } catch (IOException error) {
            // What is wrong with its folder the program says.
        }
    }

    /**
     * What may become of a log on a kind of file system; empty for those of which nothing is known.
     */
    static String dangerOf(String kind) {
        return switch (kind) {
            case "nfs", "nfs4", "cifs", "smb3", "fuse.sshfs", "fuse.glusterfs" -> "nothing sees there whether a program of another machine has it too";
            case "overlay", "tmpfs", "ramfs" -> "it is lost with the container or the machine, and what is prepared then waits for somebody";
            default -> "";
        };
    }

    private static Log drawn(Path log, String given, List<Resource> resources) throws Fault.Unavailable {
        if (given.length() + 1 + DRAWN > LONGEST) {
            throw new Fault.Unavailable("the log " + log + " is new, and the name " + given + " too long: it has at most "
                + (LONGEST - 1 - DRAWN) + " letters, since " + DRAWN + " are drawn after it");
        }
        String drawn = new SecureRandom().ints(given.isEmpty() ? LONGEST - 4 : DRAWN, 0, LETTERS.length()).mapToObj(LETTERS::charAt)
            .map(String::valueOf).collect(Collectors.joining());
        return new Log(given.isEmpty() ? drawn : given + "-" + drawn, resources.stream().map(Resource::name).toList(), 0, false);
    }

    // ** what the program prints

    /** The log in the file; explained, with the branches that its rows wait for. */
    static Log read(Path log, Coordinator.Starter starter, String program, boolean isExplained) throws Fault {
        StringBuilder said = new StringBuilder();
        List<String> asked = isExplained ? List.of(program, "log", "--explain", log.toString()) : List.of(program, "log", log.toString());
        String manager = "";
        long incarnation = -1;
        List<String> resources = new ArrayList<>(), rows = new ArrayList<>();
        for (String line : printed(starter, asked, "", LONGEST_LOOK, said).split("\n")) {
            String[] words = line.split(" ", -1);
            try {
                switch (words[0]) {
                    case "name" -> manager = words[1];
                    case "rm" -> resources.add(words[2]);
                    case "incarnation" -> incarnation = Long.parseLong(words[1]);
                    default -> rows.add(line);
                }
            } catch (IndexOutOfBoundsException | NumberFormatException error) {
                throw new Fault.Unavailable("what " + program + " prints of the log " + log + " isn't what xatm log prints: " + line);
            }
        }
        if (incarnation < 0) {
            throw new Fault.Unavailable("what " + program + " prints of the log " + log + " has no incarnation: is it the xatm of this driver's version?");
        }
        Log found = new Log(manager, withAdded(log, resources), incarnation, said.indexOf("another process runs over it") >= 0);
        rows.forEach(found::take);
        return found;
    }

    private void take(String row) {
        String first = row.split(" ", -1)[0];
        Matcher branch = EXPLAINED.matcher(row);
        if (branch.matches()) {
            BranchXid xid = BranchXid.parse(branch.group(1));
            decisions.computeIfAbsent(xid.transaction(), none -> new ArrayList<>()).add(xid);
        } else if (first.matches("[0-9a-f]{32}")) {
            decisions.put(first, new ArrayList<>());
        } else if (first.contains(":")) {
            heuristics.add(row);
        }
    }

    /**
     * What a program prints that is given a text, once it has ended, or is ended after so long; and
     * what it says beside.
     */
    static String printed(Coordinator.Starter starter, List<String> words, String given, Duration longest, StringBuilder said) throws Fault.Gone {
        try {
            Process process = starter.start(words);
            CompletableFuture.delayedExecutor(longest.toMillis(), TimeUnit.MILLISECONDS).execute(process::destroyForcibly);
            try (OutputStream input = process.getOutputStream()) {
                input.write(given.getBytes(StandardCharsets.US_ASCII));
            } catch (IOException error) {
                // It has ended, and says why.
            }
            String printed = new String(process.getInputStream().readAllBytes(), StandardCharsets.ISO_8859_1);
            said.append(new String(process.getErrorStream().readAllBytes(), StandardCharsets.UTF_8).trim());
            if (process.waitFor() != 0) {
                throw new Fault.Gone("the log isn't to be had; it said: " + said, process.exitValue());
            }
            return printed;
        } catch (IOException error) {
            throw new Fault.Gone("it doesn't start: " + error.getMessage());
        } catch (InterruptedException error) {
            Thread.currentThread().interrupt();
            throw new Fault.Gone("interrupted");
        }
    }

    // ** its names

    /**
     * Drivers before this one kept the names in a file beside the log, with those that were added
     * to the log's.
     */
    private static List<String> withAdded(Path log, List<String> kept) throws Fault.Unavailable {
        Path file = log.resolveSibling(log.getFileName() + "-resources");
        try {
            List<String> names = Files.exists(file) ? Files.readAllLines(file) : kept;
            return names.size() > kept.size() && names.subList(0, kept.size()).equals(kept) ? names : kept;
        } catch (IOException error) {
            throw new Fault.Unavailable("the names of the resources can't be read from " + file, error);
        }
    }

    /**
     * A manager that was given a name has a log of that name, alone or with what was drawn after
     * it.
     */
    private void seeManager(Path log, String given) throws Fault.Unavailable {
        if (!isNamed(manager, given)) {
            throw new Fault.Unavailable("the log " + log + " is that of " + (manager.isEmpty() ? "a manager without a name" : "the manager " + manager)
                + ", not of " + given + ". Is it the right file?");
        }
    }

    /** Whether a manager's name is one that a program which gave this name may have. */
    static boolean isNamed(String manager, String given) {
        return given.isEmpty() || manager.equals(given) || manager.startsWith(given + "-");
    }

    /** The number of a resource. */
    int numberOf(Resource resource) {
        return resources.indexOf(resource.name());
    }

    /** The words by which {@code xatm serve} is started over the log, for so many threads. */
    List<String> served(Path log, String program, int threads) {
        List<String> words = new ArrayList<>(List.of(program, "serve", "--moves"));
        words.addAll(manager.isEmpty() ? List.of() : List.of("--name", manager));
        resources.forEach(name -> words.addAll(List.of("--rm", name)));
        words.addAll(List.of("--log", log.toString(), Integer.toString(threads), Integer.toString(resources.size())));
        return words;
    }
}
