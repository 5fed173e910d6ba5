package garterfossil;

import garterfossil.jdbc.JdbcResource;
import java.io.BufferedReader;
import java.io.IOException;
import java.io.InputStreamReader;
import java.io.Reader;
import java.lang.reflect.InvocationTargetException;
import java.lang.reflect.Method;
import java.nio.charset.StandardCharsets;
import java.nio.file.Files;
import java.nio.file.Path;
import java.time.Duration;
import java.util.ArrayList;
import java.util.HashMap;
import java.util.LinkedHashMap;
import java.util.List;
import java.util.Locale;
import java.util.Map;
import java.util.Properties;
import java.util.Set;
import java.util.TreeMap;
import java.util.stream.Collectors;
import javax.sql.DataSource;
import javax.sql.XADataSource;

/**
 * The command line: {@code java -cp .. garterfossil.Command status FILE}, and what {@link #USAGE}
 * has. The file has properties: {@code log}, {@code program}, and of each resource {@code
 * resource.NAME.class}, its XADataSource or XAConnectionFactory, and what is to be set on that, as
 * {@code resource.NAME.url}; and of a mirror so too {@code mirror.class}, a DataSource.
 *
 * <p>The status is 0; or 1 if something is in doubt still, or wasn't ended; or 2 if a resource, or
 * the log, can't be had.
 */
public final class Command {
    private static final String USAGE = "usage: garterfossil.Command status FILE\n"
        + "       garterfossil.Command recover FILE\n"
        + "       garterfossil.Command end FILE BRANCH [--yes] [--left-by NAME --outcome commit|rollback]\n"
        + "       garterfossil.Command failover FILE [--name NAME]";
    private static final String RESOURCE = "resource.", MIRROR = "mirror.";
    /** The options of each, of which --yes has no value. */
    private static final Map<String, Set<String>> OPTIONS = Map.of("status", Set.of(), "recover", Set.of(),
        "end", Set.of("--yes", "--left-by", "--outcome"), "failover", Set.of("--name"));
    private static final Duration LONGEST = Duration.ofSeconds(60);

    private Command() {
    }

    /** Does what the words ask for, and ends the process. */
    public static void main(String[] words) {
        System.exit(run(words));
    }

    static int run(String[] words) {
        List<String> given = new ArrayList<>();
        Map<String, String> options = new HashMap<>();
        for (int at = 0; at < words.length; at++) {
            if (words[at].startsWith("--")) {
                options.put(words[at], words[at].equals("--yes") ? "" : at + 1 < words.length ? words[++at] : null);
            } else {
                given.add(words[at]);
            }
        }
        boolean isRight = !given.isEmpty() && OPTIONS.getOrDefault(given.get(0), Set.of("none")).containsAll(options.keySet())
            && OPTIONS.containsKey(given.get(0)) && !options.containsValue(null) && given.size() == (given.get(0).equals("end") ? 3 : 2);
        if (!isRight) {
            System.err.println(USAGE);
            return 3;
        }
        try {
            return does(given, options, builder(Path.of(given.get(1))));
        } catch (Fault | IOException | ReflectiveOperationException | IllegalArgumentException | LinkageError error) {
            System.err.println("garterfossil: " + given.get(1) + ": " + told(error));
            return 2;
        }
    }

    private static int does(List<String> given, Map<String, String> options, Manager.Builder builder) throws Fault, IOException {
        switch (given.get(0)) {
            case "end": return end(builder, given.get(2), options);
            case "failover":
                if (options.containsKey("--name")) {
                    builder.name(options.get("--name"));
                }
                System.out.println(builder.failOver());
                return 0;
            default:
                int owing = given.get(0).equals("recover") ? builder.recover(LONGEST) : 0;
                Doubt doubt = builder.status();
                System.out.println(doubt);
                return doubt.unreachable() > 0 ? 2 : owing + doubt.branches() > 0 ? 1 : 0;
        }
    }

    /** Ends a branch, after a question. */
    private static int end(Manager.Builder builder, String branch, Map<String, String> options) throws Fault, IOException {
        String leftBy = options.get("--left-by");
        try (ByHand it = leftBy == null ? builder.byHand(branch) : builder.byHandLeftBy(leftBy, options.getOrDefault("--outcome", ""), branch)) {
            System.out.println(it);
            if (leftBy != null) {
                System.out.println("All branches of a transaction are to end alike: look at what the other resources hold of it, and that its manager"
                    + " runs nowhere.");
            }
            if (!options.containsKey("--yes") && !agrees()) {
                System.out.println("nothing was done");
                return 1;
            }
            System.out.println(it.end());
            return 0;
        }
    }

    private static boolean agrees() throws IOException {
        System.out.print("End it so? (yes/no) ");
        System.out.flush();
        String answer = new BufferedReader(new InputStreamReader(System.in, StandardCharsets.UTF_8)).readLine();
        return answer != null && answer.trim().equalsIgnoreCase("yes");
    }

    /** What somebody is told of an error: of a class that fails, what that says. */
    private static String told(Throwable error) {
        if (error instanceof InvocationTargetException || error instanceof ExceptionInInitializerError) {
            return told(error.getCause());
        }
        boolean isOurs = error instanceof Fault || error instanceof IllegalArgumentException;
        return isOurs && error.getMessage() != null ? error.getMessage() : error.toString();
    }

    private static Manager.Builder builder(Path file) throws IOException, ReflectiveOperationException {
        Properties found = new Properties();
        try (Reader reader = Files.newBufferedReader(file)) {
            found.load(reader);
        }
        Manager.require(found.containsKey("log"), "there is no log");
        Manager.Builder builder = Manager.over(Path.of(found.getProperty("log")));
        if (found.containsKey("program")) {
            builder.program(found.getProperty("program"));
        }
        for (Map.Entry<String, Map<String, String>> it : resources(found).entrySet()) {
            builder.resource(resource(it.getKey(), it.getValue()));
        }
        Map<String, String> mirror = found.stringPropertyNames().stream().filter(key -> key.startsWith(MIRROR))
            .collect(Collectors.toMap(key -> key.substring(MIRROR.length()), found::getProperty));
        if (!mirror.isEmpty()) {
            Object source = made("mirror", mirror);
            Manager.require(source instanceof DataSource, source.getClass().getName() + " is no DataSource");
            builder.mirror((DataSource) source);
        }
        return builder;
    }

    /** What is set of each resource, by their names. */
    private static Map<String, Map<String, String>> resources(Properties found) {
        Map<String, Map<String, String>> all = new TreeMap<>();
        for (String key : found.stringPropertyNames()) {
            if (key.startsWith(RESOURCE)) {
                String[] parts = key.split("\\.", 3);
                Manager.require(parts.length == 3 && !parts[1].isEmpty() && !parts[2].isEmpty(), "a resource's line has NAME.class after " + RESOURCE
                    + ", or NAME and what is to be set, and not: " + key);
                all.computeIfAbsent(parts[1], it -> new LinkedHashMap<>()).put(parts[2], found.getProperty(key));
            }
        }
        return all;
    }

    /** The object of a class, with what is to be set on it. */
    private static Object made(String what, Map<String, String> set) throws ReflectiveOperationException {
        Manager.require(set.containsKey("class"), "there is no " + what + ".class");
        Object source = Class.forName(set.remove("class")).getDeclaredConstructor().newInstance();
        for (Map.Entry<String, String> it : set.entrySet()) {
            set(source, it.getKey(), it.getValue());
        }
        return source;
    }

    private static Resource resource(String name, Map<String, String> set) throws ReflectiveOperationException {
        Object source = made(RESOURCE + name, set);
        if (source instanceof XADataSource database) {
            return JdbcResource.of(name, database);
        }
        // JMS isn't everywhere.
        Class<?> factory = Class.forName("javax.jms.XAConnectionFactory");
        Manager.require(factory.isInstance(source), source.getClass().getName() + " is no XADataSource, and no " + factory.getName());
        return (Resource) Class.forName("garterfossil.jms.JmsResource").getMethod("of", String.class, factory).invoke(null, name, source);
    }

    private static void set(Object target, String name, String text) throws ReflectiveOperationException {
        String setter = "set" + name.substring(0, 1).toUpperCase(Locale.ROOT) + name.substring(1);
        for (Method method : target.getClass().getMethods()) {
            Class<?> kind = method.getParameterCount() == 1 && method.getName().equals(setter) ? method.getParameterTypes()[0] : null;
            if (kind == String.class || kind == int.class || kind == boolean.class) {
                try {
                    method.invoke(target, value(kind, name, text));
                    return;
                } catch (InvocationTargetException error) {
                    throw new IllegalArgumentException(name + ": " + told(error));
                }
            }
        }
        throw new IllegalArgumentException(target.getClass().getName() + " has no " + name + " to be set");
    }

    private static Object value(Class<?> kind, String name, String text) {
        if (kind == boolean.class) {
            Manager.require(text.equalsIgnoreCase("true") || text.equalsIgnoreCase("false"), name + " is to be true or false, and not: " + text);
            return Boolean.valueOf(text);
        }
        try {
            return kind == int.class ? (Object) Integer.valueOf(text) : text;
        } catch (NumberFormatException error) {
            throw new IllegalArgumentException(name + " is to be a whole number, and not: " + text);
        }
    }
}
