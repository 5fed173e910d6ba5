package garterfossil;

import java.io.BufferedReader;
import java.io.FilterInputStream;
import java.io.FilterOutputStream;
import java.io.IOException;
import java.io.InputStream;
import java.io.InputStreamReader;
import java.io.InterruptedIOException;
import java.io.OutputStream;
import java.io.PipedInputStream;
import java.io.PipedOutputStream;
import java.io.UncheckedIOException;
import java.nio.charset.StandardCharsets;
import java.nio.file.Files;
import java.nio.file.Path;
import java.nio.file.StandardOpenOption;
import java.util.ArrayDeque;
import java.util.ArrayList;
import java.util.Arrays;
import java.util.Deque;
import java.util.HashMap;
import java.util.HashSet;
import java.util.HexFormat;
import java.util.LinkedHashMap;
import java.util.List;
import java.util.Map;
import java.util.Set;
import java.util.TreeMap;
import java.util.TreeSet;
import java.util.concurrent.CopyOnWriteArrayList;
import java.util.concurrent.CountDownLatch;
import java.util.concurrent.TimeUnit;
import java.util.concurrent.locks.LockSupport;
import java.util.stream.Collectors;

/**
 * A stand-in for {@code xatm serve --moves}: it replies as docs/MOVES.md says, and keeps its rows
 * in files of a folder.
 *
 * <p>It writes each line that it reads to the file `requests` of its folder. Where `slow` is there,
 * a decision takes 20 ms. The file `stop-at` has the beginning of a move at which its memory fails,
 * once; `wrong-at` one to which it replies wrongly, once, and how, after a line feed. Where the
 * file `die-at` has a word, it ends at the first move that begins with it, instead of a reply, and
 * removes the file; {@code decided} is a decision to commit that it makes and doesn't tell. It
 * begins with the line of the protocol where the file `protocol` has its words. Where `refusal` is
 * there, it ends with the status that this has, and says what stands after that. The files `names`
 * and `rows` have what {@code xatm log} prints of its log, and `in-use` is there if that says that
 * a program has it; what {@code xatm log --make} is given is in `made`. From the first move that
 * begins with the word of the file `silent` on, or from its start for `restarted`, it says nothing,
 * and the file is removed.
 */
final class StandInCoordinator extends Process {
    private final PipedOutputStream input = new PipedOutputStream();
    private final PipedInputStream output = new PipedInputStream(65536);
    private final PipedInputStream fromDriver;
    private final PipedOutputStream toDriver;
    private final CountDownLatch ended = new CountDownLatch(1);
    private final Thread thread;
    private final Path folder;
    private final long incarnation;
    // The status that it ends with at once, and what it says; or none.
    private final String[] refusal;
    // Of the manager, in hexadecimal digits.
    private final String name;
    private final Map<String, List<String>> rows = new TreeMap<>();
    private final Map<String, List<String>> found;
    private final Map<Integer, Transaction> transactions = new HashMap<>();
    private final Map<Integer, Recovering> recoveries = new HashMap<>();
    // The calls by which branches of this session are to be ended; and the branches of rows that
    // are.
    private final Map<String, String> debts = new LinkedHashMap<>();
    private final Set<String> settled = new HashSet<>();
    private long sequence;
    private boolean isSilent, isStopped;
    /** Before each reply. */
    volatile Runnable before = () -> { };
    /**
     * What the driver's write, or read, of such a text ends in: once a half is written, or all is
     * read.
     */
    volatile Map.Entry<String, Error> writing, reading;
    /** What its next try to end this ends in. */
    volatile Error ending;
    /** What the driver wrote, as it was written: each of several lines, perhaps. */
    final List<String> written = new CopyOnWriteArrayList<>();

    /** The transaction of a thread. */
    private static final class Transaction {
        final String gtrid;
        /** By resource manager: the call that waits there, or how far its branch has come. */
        final Map<Integer, String> places = new TreeMap<>();
        final Set<Integer> owed = new TreeSet<>();
        final Map<Integer, String> mixed = new TreeMap<>();
        /** The outcome, once it is decided. */
        String outcome;
        boolean hasRow;

        Transaction(String gtrid) {
            this.gtrid = gtrid;
        }

        List<Integer> asked() {
            return places.keySet().stream().filter(rm -> CALLS.contains(places.get(rm))).collect(Collectors.toList());
        }
    }

    /** The recovery of a resource manager. */
    private static final class Recovering {
        final Deque<String> calls = new ArrayDeque<>();
        final Set<String> prepared = new HashSet<>();
        boolean isPaging, isLast, isPaying;
        int putOff;
    }

    private static final Set<String> CALLS = Set.of("prepare", "commit-at-once", "commit", "rollback", "undo", "refuse", "forget");

    /** The process of a command, as {@code xatm} has it. */
    static Process of(Path folder, List<String> words) throws IOException {
        if (words.contains("--make")) {
            return new ProcessBuilder("tee", folder.resolve("made").toString()).start();
        }
        if (words.get(1).equals("log")) {
            String said = Files.exists(folder.resolve("in-use")) ? "xatm: log: another process runs over it, or it can't be written" : "";
            Path printed = Files.write(folder.resolve("printed"), printed(folder, words.contains("--explain")));
            return new ProcessBuilder("sh", "-c", "cat \"$1\"; echo \"$2\" >&2", "sh", printed.toString(), said).start();
        }
        return new StandInCoordinator(folder, words);
    }

    /** What {@code xatm log} prints, or with {@code --explain} as far as the driver needs that. */
    private static List<String> printed(Path folder, boolean isExplained) throws IOException {
        List<String> lines = new ArrayList<>(Files.readAllLines(folder.resolve("names")));
        String name = lines.stream().filter(line -> line.startsWith("name ")).map(line -> line.substring(5)).findFirst().orElse("");
        Path counter = folder.resolve("incarnation");
        lines.add("incarnation " + (Files.exists(counter) ? Files.readString(counter).trim() : "0"));
        for (String row : Files.readAllLines(folder.resolve("rows"))) {
            List<String> words = List.of(row.split(" "));
            lines.add(isExplained ? words.get(0) + " is decided to commit" : row);
            words.subList(1, isExplained ? words.size() : 1).forEach(xid -> lines.add("    7:" + HexFormat.of().formatHex(
                name.getBytes(StandardCharsets.US_ASCII)) + xid.substring(2) + " at resource manager " + rm("0")));
        }
        return lines;
    }

    private StandInCoordinator(Path folder, List<String> command) throws IOException {
        this.folder = folder;
        int named = command.indexOf("--name");
        name = named < 0 ? "" : HexFormat.of().formatHex(command.get(named + 1).getBytes(StandardCharsets.US_ASCII));
        String objection = keptNames(command);
        fromDriver = new PipedInputStream(input, 65536);
        toDriver = new PipedOutputStream(output);
        Path counter = folder.resolve("incarnation");
        incarnation = Files.exists(counter) ? Long.parseLong(Files.readString(counter)) + 1 : 1;
        Files.writeString(counter, Long.toString(incarnation));
        Path kept = folder.resolve("rows");
        if (Files.exists(kept)) {
            for (String line : Files.readAllLines(kept)) {
                String[] words = line.split(" ");
                rows.put(words[0], new ArrayList<>(Arrays.asList(words).subList(1, words.length)));
            }
        }
        found = new TreeMap<>(rows);
        Path refused = folder.resolve("refusal");
        refusal = (Files.exists(refused) ? Files.readString(refused) : objection).split(" ", 2);
        save();
        thread = new Thread(this::serve, "a stand-in for the coordinator");
        thread.setDaemon(true);
        thread.start();
    }

    /**
     * A new log keeps the names that it is made with, and one that was there those that come after
     * them. What it says against others.
     */
    private String keptNames(List<String> words) throws IOException {
        Path names = folder.resolve("names");
        List<String> lines = new ArrayList<>();
        for (int at = 0; at < words.size(); at++) {
            if (words.get(at).equals("--name")) {
                lines.add("name " + words.get(at + 1));
            } else if (words.get(at).equals("--rm")) {
                lines.add("rm " + (lines.size() - (name.isEmpty() ? 0 : 1)) + " " + words.get(at + 1));
            }
        }
        List<String> kept = new ArrayList<>(Files.exists(folder.resolve("log")) && Files.exists(names) ? Files.readAllLines(names) : List.of());
        kept.removeIf(String::isBlank);
        for (int at = 0; at < Math.min(kept.size(), lines.size()); at++) {
            if (!kept.get(at).equals(lines.get(at))) {
                return "6 xatm: log: log: its " + kept.get(at) + " isn't " + lines.get(at);
            }
        }
        Files.writeString(folder.resolve("log"), "a log");
        if (lines.size() > kept.size()) {
            Files.write(names, lines);
        }
        return "0 ";
    }

    private void save() throws IOException {
        Files.write(folder.resolve("rows"), rows.entrySet().stream().map(it -> it.getKey() + " " + String.join(" ", it.getValue()))
            .collect(Collectors.toList()));
    }

    private void dieAt(String moment) throws IOException {
        Path file = folder.resolve("die-at");
        if (Files.exists(file) && moment.startsWith(Files.readString(file).trim())) {
            Files.delete(file);
            throw new IOException("it ends");
        }
    }

    private void beSilentAt(String moment) throws IOException {
        Path file = folder.resolve("silent");
        if (Files.exists(file) && moment.startsWith(Files.readString(file).trim())) {
            Files.delete(file);
            isSilent = true;
        }
        while (isSilent) {
            LockSupport.parkNanos(10_000_000);
            if (Thread.interrupted()) {
                throw new IOException("it ends");
            }
        }
    }

    /** The moves of a line. What leads to decisions is one write of the log. */
    private String replyToAll(String line) throws IOException {
        Files.writeString(folder.resolve("requests"), line + "\n", StandardOpenOption.CREATE, StandardOpenOption.APPEND);
        String[] moves = line.split(";");
        for (String move : moves) {
            before.run();
            dieAt(move);
            beSilentAt(move);
            Path stopping = folder.resolve("stop-at");
            if (Files.exists(stopping) && move.startsWith(Files.readString(stopping))) {
                Files.delete(stopping);
                isStopped = true;
            }
        }
        if (isStopped) {
            return "stopped";
        }
        List<String> replies = new ArrayList<>();
        int before = rows.size();
        for (String move : moves) {
            String wrong = wrongReply(move);
            replies.add(wrong != null ? wrong : reply(move.split(" ")));
        }
        if (rows.size() != before) {
            save();
        }
        if (rows.size() > before) {
            LockSupport.parkNanos(Files.exists(folder.resolve("slow")) ? 20_000_000 : 1);
            dieAt("decided");
        }
        return String.join(";", replies);
    }

    private String wrongReply(String move) throws IOException {
        Path file = folder.resolve("wrong-at");
        String[] told = Files.exists(file) ? Files.readString(file).split("\n") : new String[] {"nothing", ""};
        if (!move.startsWith(told[0])) {
            return null;
        }
        Files.delete(file);
        return told[1];
    }

    private String reply(String[] words) {
        List<String> rest = Arrays.asList(words).subList(Math.min(2, words.length), words.length);
        switch (words[0]) {
            case "start": return start(Integer.parseInt(words[1]));
            case "join": return join(transactions.get(Integer.parseInt(words[1])), rest);
            case "commit": return commit(Integer.parseInt(words[1]));
            case "rollback": return rollBack(Integer.parseInt(words[1]));
            case "tell": return tell(Integer.parseInt(words[1]), rest);
            case "recover": return recover(words[1]);
            case "page": return page(words[1], rest);
            case "end": return end(words[1], words[2]);
            case "fate": return found.containsKey(words[1]) ? "committed"
                : Long.parseLong(words[1].substring(0, 16), 16) + 1 == incarnation ? "rolled-back" : "unknown";
            case "due": rows.values().removeIf(settled::containsAll); return "due";
            case "quit": return "bye";
            default: return "error not a move";
        }
    }

    // ** threads

    private String next(int thread) {
        String gtrid = String.format("%016x%016x", incarnation, ++sequence);
        transactions.put(thread, new Transaction(gtrid));
        return " next " + gtrid;
    }

    private String start(int thread) {
        return transactions.containsKey(thread) ? "error not now" : "started" + next(thread);
    }

    private String join(Transaction it, List<String> rms) {
        if (it.outcome != null || !List.of("working", "prepare").containsAll(it.places.values())) {
            return "error not now";
        }
        rms.forEach(rm -> it.places.put(Integer.parseInt(rm), "working"));
        if (it.places.size() > 1) {
            it.places.replaceAll((rm, place) -> "prepare");
        }
        return it.places.size() > 1 ? told(it) : "joined";
    }

    private String commit(int thread) {
        Transaction it = transactions.get(thread);
        if (it.outcome != null || it.places.size() > 1 || !it.asked().isEmpty()) {
            return "error not now";
        }
        it.places.replaceAll((rm, place) -> "commit-at-once");
        it.outcome = it.places.isEmpty() ? "committed" : null;
        return told(thread);
    }

    private String rollBack(int thread) {
        Transaction it = transactions.get(thread);
        if (it.outcome != null || !List.of("working", "prepare").containsAll(it.places.values())) {
            return "error not now";
        }
        undo(it, "rolled-back");
        return told(thread);
    }

    private void undo(Transaction it, String outcome) {
        it.outcome = outcome;
        it.places.replaceAll((rm, place) -> place.equals("prepared") ? "rollback" : place.equals("over") ? place : "undo");
    }

    private String told(Transaction it) {
        List<Integer> asked = it.asked();
        return it.places.get(asked.get(0)) + asked.stream().map(rm -> " " + rm).collect(Collectors.joining());
    }

    private String told(int thread) {
        Transaction it = transactions.get(thread);
        if (!it.asked().isEmpty()) {
            return told(it);
        }
        String owed = it.owed.isEmpty() ? "" : " owed" + it.owed.stream().map(rm -> " " + rm).collect(Collectors.joining());
        String usual = it.outcome.equals("committed") ? "7" : "6";
        it.mixed.values().removeIf(usual::equals);
        StringBuilder mixed = new StringBuilder(it.mixed.isEmpty() ? "" : " mixed");
        it.mixed.forEach((rm, how) -> mixed.append(' ').append(rm).append(' ').append(how));
        if (it.hasRow) {
            rows.get(it.gtrid).stream().filter(branch -> !debts.containsKey(branch)).forEach(settled::add);
        }
        return it.outcome + owed + mixed + next(thread);
    }

    private String tell(int thread, List<String> answers) {
        Transaction it = transactions.get(thread);
        List<Integer> asked = it == null ? List.of() : it.asked();
        boolean areAnswers = asked.size() == answers.size() && !asked.isEmpty();
        for (int at = 0; areAnswers && at < asked.size(); at++) {
            areAnswers = isAnswer(it.places.get(asked.get(at)), answers.get(at));
        }
        if (!areAnswers) {
            return "error not now";
        }
        boolean isOpen = it.outcome == null, isVote = it.places.containsValue("prepare");
        for (int at = 0; at < asked.size(); at++) {
            hear(it, thread, asked.get(at), answers.get(at));
        }
        if (isOpen && isVote) {
            decide(it, thread, asked, answers);
        }
        return told(thread);
    }

    private static boolean isAnswer(String call, String answer) {
        boolean isRollback = answer.matches("10[0-7]");
        switch (call) {
            case "prepare": return isRollback || answer.matches("0|3|lost");
            case "commit-at-once": return isRollback || answer.matches("0|-3|lost");
            case "commit": return isRollback || answer.matches("[04-8]|-[34]|lost");
            case "rollback": return isRollback || answer.matches("[05-8]|-4|lost");
            case "undo": return isRollback || answer.matches("[06]|-4|lost");
            default: return answer.matches("0|-[34]|lost");
        }
    }

    private void hear(Transaction it, int thread, int rm, String answer) {
        String call = it.places.get(rm);
        boolean isAlone = call.equals("commit") && answer.matches("[5-8]|-[34]|10.") || call.equals("rollback") && answer.matches("[5-8]|-4");
        it.places.put(rm, call.equals("prepare") && answer.equals("0") ? "prepared" : isAlone ? "forget" : "over");
        if (it.places.get(rm).equals("forget")) {
            it.mixed.put(rm, answer.equals("-4") ? "8" : answer.matches("-3|10.") ? "6" : answer);
        }
        if (answer.equals("lost") || answer.equals("4")) {
            it.owed.add(rm);
            debts.put(xid(it.gtrid, thread, rm), call.equals("commit") ? "xa_commit" : call.equals("forget") ? "xa_forget" : "xa_rollback");
        }
        if (call.equals("commit-at-once")) {
            String no = "rolled-back " + (answer.equals("-3") ? "104" : answer) + " " + rm;
            it.outcome = answer.equals("lost") ? "unknown" : answer.equals("0") ? "committed" : no;
        }
    }

    private void decide(Transaction it, int thread, List<Integer> asked, List<String> answers) {
        for (int at = 0; at < asked.size(); at++) {
            if (!answers.get(at).matches("[03]")) {
                undo(it, "rolled-back " + (answers.get(at).equals("lost") ? "101" : answers.get(at)) + " " + asked.get(at));
                return;
            }
        }
        it.outcome = "committed";
        it.hasRow = it.places.containsValue("prepared");
        it.places.replaceAll((rm, place) -> place.equals("prepared") ? "commit" : place);
        if (it.hasRow) {
            rows.put(it.gtrid, it.asked().stream().map(rm -> xid(it.gtrid, thread, rm)).collect(Collectors.toList()));
        }
    }

    private static String xid(String gtrid, int thread, int rm) {
        return String.format("7:%s:%08x%08x", gtrid, thread, rm);
    }

    // ** recoveries

    private static String gtridOf(String branch) {
        return branch.split(":")[1];
    }

    private String recover(String rm) {
        if (recoveries.containsKey(rm(rm))) {
            return "error not now";
        }
        Recovering it = new Recovering();
        it.isPaging = true;
        recoveries.put(rm(rm), it);
        return "recover 32 TMSTARTRSCAN";
    }

    private static int rm(String word) {
        return Integer.parseInt(word);
    }

    private String page(String rm, List<String> xids) {
        Recovering it = recoveries.get(rm(rm));
        if (it == null || !it.isPaging) {
            return "error not now";
        }
        it.isPaging = false;
        it.isLast = xids.size() < 32;
        for (String branch : xids) {
            long begun = Long.parseLong(gtridOf(branch).substring(0, 16), 16), number = Long.parseLong(gtridOf(branch).substring(16), 16);
            if (begun > incarnation || begun == incarnation && number > sequence) {
                isStopped = true;
                return "strange " + branch;
            }
            if (begun < incarnation) {
                it.prepared.add(branch);
                it.calls.add((rows.containsKey(gtridOf(branch)) ? "xa_commit " : "xa_rollback ") + branch);
            }
        }
        return goOn(rm);
    }

    private String goOn(String rm) {
        Recovering it = recoveries.get(rm(rm));
        if (it.calls.isEmpty() && !it.isLast) {
            it.isPaging = true;
            return "recover 32";
        }
        if (it.calls.isEmpty() && !it.isPaying) {
            it.isPaying = true;
            String end = String.format("%08x", rm(rm));
            debts.forEach((branch, call) -> it.calls.add(branch.endsWith(end) ? call + " " + branch : ""));
            found.values().forEach(row -> row.stream().filter(branch -> branch.endsWith(end) && !settled.contains(branch))
                .forEach(branch -> it.calls.add("xa_commit " + branch)));
            it.calls.removeIf(String::isEmpty);
        }
        if (!it.calls.isEmpty()) {
            return it.calls.peek();
        }
        recoveries.remove(rm(rm));
        rows.values().removeIf(settled::containsAll);
        return "recovered" + (it.putOff > 0 ? " owed " + it.putOff : "");
    }

    private String end(String rm, String answer) {
        Recovering it = recoveries.get(rm(rm));
        if (it == null) {
            return "error not now";
        }
        if (answer.equals("lost")) {
            recoveries.remove(rm(rm));
            return "later";
        }
        String[] call = it.calls.isEmpty() ? new String[] {"none"} : it.calls.peek().split(" ");
        if (!isAnswer(call[0].replace("xa_", ""), answer)) {
            return "error not now";
        }
        it.calls.remove();
        boolean isPrepared = it.prepared.contains(call[1]);
        if (answer.equals("4")) {
            it.putOff++;
            it.prepared.add(call[1]);
        } else if (!call[0].equals("xa_forget") && (answer.matches("[5-8]") || answer.equals("-4") && isPrepared
            || call[0].equals("xa_commit") && answer.matches("-3|10."))) {
            it.calls.addFirst("xa_forget " + call[1]);
        } else {
            debts.remove(call[1]);
            settled.add(call[1]);
            it.prepared.remove(call[1]);
        }
        return goOn(rm);
    }

    /** Replies to moves until it is told to end. */
    private void serve() {
        try (OutputStream replies = toDriver) {
            if (!refusal[1].isEmpty()) {
                return;
            }
            beSilentAt("restarted");
            if (Files.exists(folder.resolve("protocol"))) {
                write(replies, "protocol " + Files.readString(folder.resolve("protocol")).trim());
            }
            write(replies, "restarted " + incarnation + " " + rows.size() + " 0");
            BufferedReader lines = new BufferedReader(new InputStreamReader(requests(), StandardCharsets.ISO_8859_1));
            for (String line = lines.readLine(); line != null; line = lines.readLine()) {
                // The name stands in front of the transaction in each identifier that leaves.
                String reply = replyToAll(line.replaceAll("(^| )7:" + name, "$17:"));
                write(replies, reply.replaceAll("(^| )7:", "$17:" + name));
                if (line.equals("quit") || isStopped) {
                    return;
                }
            }
        } catch (IOException error) {
            // It is killed, or the driver is gone.
        } finally {
            ended.countDown();
        }
    }

    /**
     * A pipe between threads gives nothing once the thread that wrote last has ended, until another
     * one writes.
     */
    private InputStream requests() {
        return new FilterInputStream(fromDriver) {
            @Override
            public int read(byte[] bytes, int from, int count) throws IOException {
                while (true) {
                    try {
                        return super.read(bytes, from, count);
                    } catch (IOException error) {
                        if (!List.of("Write end dead", "Pipe broken").contains("" + error.getMessage())) {
                            throw error;
                        }
                        LockSupport.parkNanos(1_000_000);
                    }
                }
            }
        };
    }

    /** It takes nothing once the thread that read last has ended, until another one reads. */
    private static void write(OutputStream replies, String line) throws IOException {
        byte[] bytes = (line + "\n").getBytes(StandardCharsets.ISO_8859_1);
        while (true) {
            try {
                replies.write(bytes);
                replies.flush();
                return;
            } catch (IOException error) {
                if (!"Read end dead".equals(error.getMessage())) {
                    throw error;
                }
                LockSupport.parkNanos(1_000_000);
            }
        }
    }

    // ** as a process

    @Override
    public OutputStream getOutputStream() {
        return new FilterOutputStream(input) {
            @Override
            public void write(byte[] bytes, int from, int count) throws IOException {
                Map.Entry<String, Error> told = writing;
                String text = new String(bytes, from, count, StandardCharsets.ISO_8859_1);
                written.add(text);
                if (told != null && text.contains(told.getKey())) {
                    writing = null;
                    out.write(bytes, from, count / 2);
                    throw told.getValue();
                }
                out.write(bytes, from, count);
            }
        };
    }

    @Override
    public InputStream getInputStream() {
        return new FilterInputStream(output) {
            @Override
            public int read(byte[] bytes, int from, int count) throws IOException {
                int came = readInAnyCase(bytes, from, count);
                Map.Entry<String, Error> told = reading;
                if (told != null && came > 0 && new String(bytes, from, came, StandardCharsets.ISO_8859_1).contains(told.getKey())) {
                    reading = null;
                    throw told.getValue();
                }
                return came;
            }

            /** An interrupt ends no read of a process' pipe. */
            private int readInAnyCase(byte[] bytes, int from, int count) throws IOException {
                boolean isInterrupted = false;
                try {
                    while (true) {
                        try {
                            return super.read(bytes, from, count);
                        } catch (InterruptedIOException error) {
                            isInterrupted = true;
                        }
                    }
                } finally {
                    if (isInterrupted) {
                        Thread.currentThread().interrupt();
                    }
                }
            }
        };
    }

    @Override
    public InputStream getErrorStream() {
        return new java.io.ByteArrayInputStream(refusal[1].getBytes(StandardCharsets.US_ASCII));
    }

    @Override
    public int waitFor() throws InterruptedException {
        ended.await();
        return 0;
    }

    @Override
    public boolean waitFor(long count, TimeUnit unit) throws InterruptedException {
        return ended.await(count, unit);
    }

    @Override
    public int exitValue() {
        if (ended.getCount() > 0) {
            throw new IllegalThreadStateException("it runs");
        }
        return Integer.parseInt(refusal[0]);
    }

    @Override
    public boolean isAlive() {
        return ended.getCount() > 0;
    }

    @Override
    public void destroy() {
        try {
            toDriver.close();
            fromDriver.close();
        } catch (IOException error) {
            throw new UncheckedIOException(error);
        }
        thread.interrupt();
    }

    @Override
    public Process destroyForcibly() {
        destroy();
        Error told = ending;
        if (told != null) {
            ending = null;
            throw told;
        }
        return this;
    }
}
