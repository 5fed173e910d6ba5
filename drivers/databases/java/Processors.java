import java.io.IOException;
import java.nio.file.DirectoryStream;
import java.nio.file.Files;
import java.nio.file.Path;
import java.util.LinkedHashMap;
import java.util.List;
import java.util.Map;
import java.util.StringJoiner;

/**
 * Seconds of processor that the programs of a transfer have taken so far, by their names, as Linux
 * counts them for each process.
 */
record Processors(Map<String, Double> taken) {
    private static final List<String> PROGRAMS = List.of("java", "xatm", "postgres", "mariadbd");
    /** Linux counts in hundredths of a second. */
    private static final double TICKS = 100;
    /** The places of the time in a program and in the kernel, after the name. */
    private static final int USER = 11, SYSTEM = 12;

    static Processors now() throws IOException {
        Map<String, Double> taken = new LinkedHashMap<>();
        PROGRAMS.forEach(program -> taken.put(program, 0.0));
        try (DirectoryStream<Path> processes = Files.newDirectoryStream(Path.of("/proc"), "[0-9]*")) {
            for (Path process : processes) {
                add(process, taken);
            }
        }
        return new Processors(taken);
    }

    private static void add(Path process, Map<String, Double> taken) {
        String stat;
        try {
            stat = Files.readString(process.resolve("stat"));
        } catch (IOException gone) {
            return;
        }
        int end = stat.lastIndexOf(')');
        String name = stat.substring(stat.indexOf('(') + 1, end);
        String[] fields = stat.substring(end + 2).split(" ");
        double seconds = (Double.parseDouble(fields[USER]) + Double.parseDouble(fields[SYSTEM])) / TICKS;
        taken.computeIfPresent(name, (program, sum) -> sum + seconds);
    }

    /**
     * What was taken since, for each of so many transfers, in microseconds: the programs' names,
     * each with a figure.
     */
    String eachSince(Processors before, double transfers) {
        StringJoiner words = new StringJoiner(" ");
        taken.forEach((program, seconds) -> {
            double micros = (seconds - before.taken.get(program)) / transfers * 1e6;
            words.add(String.format("%s %.0f", program, micros));
        });
        return words.toString();
    }
}
