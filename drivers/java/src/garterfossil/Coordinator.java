package garterfossil;

import java.io.ByteArrayOutputStream;
import java.io.File;
import java.io.IOException;
import java.io.InputStream;
import java.io.OutputStream;
import java.nio.charset.StandardCharsets;
import java.time.Duration;
import java.util.ArrayDeque;
import java.util.ArrayList;
import java.util.Arrays;
import java.util.List;
import java.util.Queue;
import java.util.concurrent.CompletableFuture;
import java.util.concurrent.ConcurrentLinkedQueue;
import java.util.concurrent.TimeUnit;
import java.util.concurrent.atomic.AtomicBoolean;
import java.util.concurrent.locks.LockSupport;
import java.util.concurrent.locks.ReentrantLock;

/**
 * The coordinator: {@code xatm serve --moves}, a process that this one starts, and that says what
 * to do (docs/MOVES.md).
 *
 * <p>Any thread may ask. What is posted is written with the next move that is waited for, and the
 * replies come in the order of the lines: whichever thread waits reads what has come, and wakes the
 * threads whose replies are among it. Moves that may lead to a decision are gathered: while a line
 * of such has no reply, those of other threads wait, and then go on one line, which is one write of
 * the log.
 */
class Coordinator {
    /** Stands between the moves of a line, and between their replies. */
    static final String AND = ";";
    /**
     * So many moves may be written without a reply that was read: their replies fit into the pipe,
     * so neither side blocks the other.
     */
    private static final int AHEAD = 400;
    private static final String PROTOCOL = "1";
    static final String OLDER = "older than this driver";
    /**
     * So the coordinator gets a process group of its own: Ctrl-C in a terminal is for the program
     * alone.
     */
    private static final File SETSID = new File("/usr/bin/setsid");

    /** A move that is on its way, and the place of its reply. */
    static final class Reply {
        private final String move;
        private volatile String text;
        // The thread that waits for it, where another one reads.
        private volatile Thread waiter;

        private Reply(String move) {
            this.move = move;
        }
    }

    /** What was written as one line. */
    private record Line(List<Reply> replies, boolean isGathered) {
    }

    /** The first line of the session. */
    final String greeting;
    private final Process process;
    private final OutputStream output;
    private final InputStream input;
    // What is to be written: each on a line of its own, and what is gathered. Whoever has the lock
    // writes.
    private final Queue<Reply> unwritten = new ConcurrentLinkedQueue<>(), gathered = new ConcurrentLinkedQueue<>();
    private final ReentrantLock writing = new ReentrantLock();
    private final ByteArrayOutputStream block = new ByteArrayOutputStream(8192);
    // The lines without a reply, in the order in which they are written, and whether a gathered one
    // is among them.
    private final Queue<Line> waiting = new ConcurrentLinkedQueue<>();
    private volatile boolean isDeciding;
    private volatile long written;
    // Whether a thread reads, and those whose threads sleep meanwhile. What follows is the
    // reader's.
    private final AtomicBoolean isRead = new AtomicBoolean();
    private final Queue<Reply> asleep = new ConcurrentLinkedQueue<>();
    // The second line of the start, if it came with the first.
    private final ArrayDeque<String> early = new ArrayDeque<>();
    private volatile long replied;
    private byte[] came = new byte[8192];
    private int begun;
    // What is to be written waits until more replies are read.
    private volatile boolean isPutOff;
    private volatile boolean isUp;
    private final Object ending = new Object();
    private volatile String killedFor, fault;
    private volatile int status;

    /** What starts the process. */
    interface Starter {
        Process start(List<String> words) throws IOException;
    }

    /**
     * Starts the process, of which the first lines are waited for so long: the session begins with
     * one of its own.
     */
    Coordinator(Starter starter, List<String> words, Duration patience) throws Fault.Gone {
        try {
            process = starter.start(words);
        } catch (IOException error) {
            throw new Fault.Gone("it doesn't start: " + error.getMessage());
        }
        output = process.getOutputStream();
        input = process.getInputStream();
        CompletableFuture.delayedExecutor(patience.toMillis(), TimeUnit.MILLISECONDS).execute(() -> {
            if (!isUp) {
                kill("it said nothing for " + patience.toMillis() + " ms");
            }
        });
        String line = greeted();
        // A coordinator with names says first which protocol it speaks.
        if (line.startsWith("protocol ")) {
            if (!(line + " ").startsWith("protocol " + PROTOCOL + " ")) {
                throw gone("it speaks another protocol than this driver, which has version " + PROTOCOL + ": " + line);
            }
            line = greeted();
        }
        greeting = line;
        if (!greeting.matches("restarted [0-9]{1,18}( .*)?")) {
            throw gone("it began with the line: " + greeting);
        }
        isUp = true;
    }

    /** A line that it begins with. */
    private String greeted() throws Fault.Gone {
        if (!early.isEmpty()) {
            return early.remove();
        }
        Reply reply = new Reply("the start");
        waiting.add(new Line(List.of(reply), false));
        written++;
        try {
            readUntil(reply);
        } catch (IOException error) {
            Fault.Gone gone = gone(error.getMessage());
            throw gone.getMessage().contains("--moves") ? new Fault.Gone("it is " + OLDER + ", which it has to conduct (--moves)") : gone;
        }
        return reply.text;
    }

    /** Starts a program, in a process group of its own if there is what makes one. */
    static Process start(List<String> words) throws IOException {
        List<String> all = new ArrayList<>(SETSID.canExecute() ? List.of(SETSID.getPath()) : List.of());
        all.addAll(words);
        return new ProcessBuilder(all).start();
    }

    boolean isGone() {
        return fault != null;
    }

    /** The number of the session. */
    long incarnation() {
        return Long.parseLong(greeting.split(" ")[1]);
    }

    /** Sees whether the process still runs, since nobody else does while nothing is asked. */
    void seeRuns() {
        if (!process.isAlive()) {
            end("it ended");
        }
    }

    // ** moves

    /** The reply to a move. */
    String ask(String move) throws Fault.Gone {
        return await(post(move));
    }

    /**
     * The same of a move of a thread: what it is told. A reply that is none ends the session, since
     * nobody knows what was done.
     */
    Told told(Reply reply) throws Fault.Gone, Fault.Refused {
        String text = await(reply);
        try {
            return Told.of(text);
        } catch (IllegalArgumentException error) {
            throw failed(error);
        }
    }

    /** Puts a move on its way, on a line of its own. */
    Reply post(String move) {
        Reply reply = new Reply(move);
        unwritten.add(reply);
        return reply;
    }

    /**
     * Puts a move of a thread on its way that may lead to a decision: with those of other threads.
     */
    Reply gather(String move) {
        Reply reply = new Reply(move);
        gathered.add(reply);
        return reply;
    }

    /**
     * Sees that what was posted is written: now, or once a decision that is under way is made,
     * since nothing else is done before that.
     */
    void flush() {
        if (!isDeciding) {
            write(true);
        }
    }

    /** The reply to a move that was posted. */
    String await(Reply reply) throws Fault.Gone {
        if (reply.text == null) {
            write(true);
            try {
                readUntil(reply);
            } catch (IOException error) {
                throw gone(error.getMessage());
            }
        }
        if (reply.text.equals("stopped")) {
            throw gone("its log or its memory failed, at " + reply.move);
        }
        return reply.text;
    }

    // ** its input

    private boolean hasToWrite() {
        return !unwritten.isEmpty() || !isDeciding && !gathered.isEmpty();
    }

    /**
     * Writes what was posted, unless another thread does: that writes this too. If it can't be
     * written, the process is ended, and whoever waits finds that out by reading: what it had
     * replied before is still to be read. The thread that reads writes too, after the reply to a
     * decision, so that the next one is made at once: that waits for no reply.
     */
    private void write(boolean mayWait) {
        boolean isLeft = false;
        try {
            while (!isLeft && hasToWrite() && (mayWait || !writing.isHeldByCurrentThread()) && writing.tryLock()) {
                try {
                    while (hasToWrite() && (mayWait || !isFull())) {
                        if (mayWait) {
                            seeReplies();
                        }
                        writeSome();
                    }
                    isLeft = !mayWait && hasToWrite();
                } finally {
                    writing.unlock();
                }
            }
            isPutOff = mayWait ? isPutOff : isLeft;
        } catch (IOException error) {
            // Mostly it has ended by itself. To destroy it would close what it has replied.
            if (!Aside.<Boolean, RuntimeException>uninterrupted(() -> process.waitFor(1, TimeUnit.SECONDS))) {
                process.destroyForcibly();
            }
        } catch (RuntimeException | Error error) {
            // What was taken to be written may never be, and others wait for its replies.
            failed(error);
        }
    }

    private boolean isFull() {
        return written - replied > AHEAD / 2;
    }

    private void writeSome() throws IOException {
        if (fault != null) {
            throw new IOException(fault);
        }
        List<Line> lines = new ArrayList<>();
        for (Reply reply = unwritten.poll(); reply != null; reply = lines.size() < AHEAD / 4 ? unwritten.poll() : null) {
            lines.add(new Line(List.of(reply), false));
        }
        List<Reply> together = new ArrayList<>();
        if (!isDeciding) {
            for (Reply reply = gathered.poll(); reply != null; reply = together.size() < AHEAD / 4 ? gathered.poll() : null) {
                together.add(reply);
            }
        }
        if (!together.isEmpty()) {
            isDeciding = true;
            lines.add(new Line(together, true));
        }
        block.reset();
        for (Line line : lines) {
            for (Reply reply : line.replies) {
                block.writeBytes(((reply == line.replies.get(0) ? "" : AND) + reply.move).getBytes(StandardCharsets.ISO_8859_1));
            }
            block.write('\n');
            written += line.replies.size();
        }
        waiting.addAll(lines);
        block.writeTo(output);
        output.flush();
    }

    /**
     * Waits until more moves may be written. It isn't woken by the reply to the oldest, for which
     * another may wait.
     */
    private void seeReplies() throws IOException {
        for (Line first = waiting.peek(); isFull() && first != null && fault == null; first = waiting.peek()) {
            if (isRead.compareAndSet(false, true)) {
                readAsOnly(first.replies.get(0));
            } else {
                LockSupport.parkNanos(100_000);
            }
        }
    }

    // ** its output

    /**
     * Waits for a reply: reads, or lets another thread read, which wakes this one. An interrupt
     * waits: what was asked for is done.
     */
    private void readUntil(Reply reply) throws IOException {
        boolean isInterrupted = false;
        while (reply.text == null && fault == null) {
            if (isRead.compareAndSet(false, true)) {
                readAsOnly(reply);
            } else {
                sleepUnlessRead(reply);
                isInterrupted |= Thread.interrupted();
            }
        }
        if (isInterrupted) {
            Thread.currentThread().interrupt();
        }
        if (reply.text == null) {
            throw new IOException(fault);
        }
    }

    /**
     * Reads what has come already, since replies that nobody waits for would look as if they never
     * came.
     */
    void readWhatCame() throws Fault.Gone {
        if (isRead.compareAndSet(false, true)) {
            try {
                readAsOnly(null);
            } catch (IOException error) {
                throw gone(error.getMessage());
            }
        }
    }

    /** Reads until the reply has come; without one, what is there. */
    private void readAsOnly(Reply reply) throws IOException {
        try {
            while (fault == null && (reply == null ? input.available() > 0 : reply.text == null)) {
                read();
            }
        } catch (RuntimeException | Error error) {
            // Of what came a part may be given out, and the rest is lost: the next line would be
            // taken for another's reply.
            failed(error);
        } finally {
            isRead.set(false);
            wakeNext();
        }
    }

    /**
     * Sleeps while another thread reads, until that has the reply, or it is this one's turn to
     * read.
     */
    private void sleepUnlessRead(Reply reply) {
        reply.waiter = Thread.currentThread();
        asleep.add(reply);
        if (reply.text == null && fault == null && isRead.get()) {
            LockSupport.park(this);
        }
    }

    /** Somebody has to read on. */
    private void wakeNext() {
        for (Reply reply = asleep.poll(); reply != null; reply = asleep.poll()) {
            if (reply.text == null) {
                LockSupport.unpark(reply.waiter);
                return;
            }
        }
    }

    /** Reads what has come, and gives the replies out. */
    private void read() throws IOException {
        if (begun == came.length) {
            came = Arrays.copyOf(came, 2 * begun);
        }
        int count = input.read(came, begun, came.length - begun);
        if (count < 0) {
            throw new IOException("its output ended");
        }
        List<Reply> given = new ArrayList<>();
        boolean isDecided = false;
        int from = 0, end = begun + count;
        for (int at = begun; at < end; at++) {
            if (came[at] == '\n') {
                isDecided |= give(new String(came, from, at - from, StandardCharsets.ISO_8859_1), given);
                from = at + 1;
            }
        }
        begun = end - from;
        System.arraycopy(came, from, came, 0, begun);
        // What was gathered meanwhile goes first: the coordinator needn't wait until another thread
        // runs.
        if (isDecided || isPutOff) {
            write(false);
        }
        for (Reply reply : given) {
            if (reply.waiter != null) {
                LockSupport.unpark(reply.waiter);
            }
        }
    }

    /** Gives a line out. Whether it is that of what was gathered. */
    private boolean give(String line, List<Reply> given) {
        Line first = waiting.poll();
        if (first == null) {
            early.add(line);
            return false;
        }
        String[] texts = first.replies.size() > 1 ? line.split(AND, -1) : new String[] {line};
        for (int at = 0; at < first.replies.size(); at++) {
            Reply reply = first.replies.get(at);
            // A session that is over replies by one word.
            reply.text = texts.length == first.replies.size() ? texts[at] : line;
            given.add(reply);
        }
        replied += first.replies.size();
        if (first.isGathered) {
            isDeciding = false;
        }
        return first.isGathered;
    }

    // ** its end

    /** The oldest line that waits for its reply, or null. */
    Object oldest() {
        return waiting.peek();
    }

    /**
     * Ends the session, and waits for the end of the process. What is open stays in doubt, as after
     * a crash.
     */
    void quit() {
        try {
            ask("quit");
        } catch (Fault error) {
            // It is over in any case.
        }
        end("the session was ended");
    }

    /** Ends the process at once. */
    void kill(String reason) {
        // Whoever reads that its output ended doesn't know why.
        killedFor = killedFor == null ? reason : killedFor;
        try {
            process.destroyForcibly();
        } finally {
            end(reason);
        }
    }

    /**
     * An error of the driver itself ends the session: the next one finds what is open, and what is
     * decided.
     */
    Fault.Gone failed(Throwable error) {
        String reason = "an error of the driver";
        try {
            reason += ": " + error;
        } finally {
            kill(reason);
        }
        return lost();
    }

    /** What whoever still waits for a reply ends in. */
    Fault.Gone lost() {
        return new Fault.Gone(fault, status);
    }

    private Fault.Gone gone(String reason) {
        end(reason);
        return lost();
    }

    /**
     * Sees that the process has ended, wakes who waits, and keeps the reason: also where there is
     * no memory for more.
     */
    private void end(String reason) {
        try {
            synchronized (ending) {
                if (fault == null) {
                    endProcess(reason);
                }
            }
        } finally {
            for (Reply reply : asleep) {
                LockSupport.unpark(reply.waiter);
            }
        }
    }

    private void endProcess(String reason) {
        String whole = killedFor == null ? reason : killedFor;
        try {
            String said = said();
            process.destroyForcibly();
            whole += said.isEmpty() ? "" : "; it said: " + said;
        } finally {
            fault = whole;
        }
    }

    /** What it said as it ended. The end of its input ends it. */
    private String said() {
        try {
            output.close();
        } catch (IOException error) {
            // It has ended already.
        }
        try {
            if (process.waitFor(10, TimeUnit.SECONDS)) {
                status = process.exitValue();
                return new String(process.getErrorStream().readAllBytes(), StandardCharsets.UTF_8).trim();
            }
        } catch (IOException error) {
            // Nothing is to be had of it.
        } catch (InterruptedException error) {
            Thread.currentThread().interrupt();
        }
        return "";
    }
}
