package garterfossil;

import static org.junit.Assert.assertEquals;
import static org.junit.Assert.assertTrue;

import java.io.ByteArrayOutputStream;
import java.io.PrintStream;
import java.nio.file.Files;
import java.nio.file.Path;
import java.util.List;
import org.junit.Rule;
import org.junit.Test;
import org.junit.rules.TemporaryFolder;

/** What the command says of a file that it can't use. */
public class CommandTest {
    @Rule
    public final TemporaryFolder temporary = new TemporaryFolder();

    private void says(int wanted, String text, String... words) {
        PrintStream before = System.err;
        ByteArrayOutputStream said = new ByteArrayOutputStream();
        System.setErr(new PrintStream(said));
        try {
            assertEquals(wanted, Command.run(words));
        } finally {
            System.setErr(before);
        }
        assertTrue(said.toString(), said.toString().contains(text));
    }

    private String file(String text) throws Exception {
        Path path = temporary.getRoot().toPath().resolve("it.properties");
        return Files.writeString(path, text).toString();
    }

    /** What a resource's line may name: it is none that takes part. */
    public static final class Source {
        public void setCount(int count) {
            throw new IllegalStateException("it has no " + count);
        }

        public void setIsOn(boolean isOn) {
            // Nothing is set.
        }
    }

    /** One that can't be made. */
    public static final class Failing {
        public Failing() {
            throw new IllegalStateException("its constructor fails");
        }
    }

    /** One whose class can't be used at all. */
    public static final class Broken {
        static {
            fails();
        }

        private static void fails() {
            throw new IllegalStateException("its class fails");
        }
    }

    private void saysOf(String text, Class<?> kind, String lines) throws Exception {
        says(2, text, "status", file("log = l\nresource.bank.class = " + kind.getName() + "\n" + lines));
    }

    @Test
    public void whatIsNoLineOfAResource() throws Exception {
        for (String key : List.of("resource.", "resource.bank", "resource..url", "resource.bank.")) {
            saysOf("and not: " + key + "\n", Source.class, key + " = x");
        }
        saysOf("count is to be a whole number, and not: many", Source.class, "resource.bank.count = many");
        saysOf("count is to be a whole number, and not: 2147483648", Source.class, "resource.bank.count = 2147483648");
        saysOf("isOn is to be true or false, and not: yes", Source.class, "resource.bank.isOn = yes");
        saysOf("count: java.lang.IllegalStateException: it has no 7", Source.class, "resource.bank.count = 7");
        saysOf("Source is no XADataSource, and no javax.jms.XAConnectionFactory", Source.class, "resource.bank.isOn = True");
        saysOf("its constructor fails", Failing.class, "");
        saysOf("its class fails", Broken.class, "");
        // The second time there is no cause of it.
        saysOf("Broken", Broken.class, "");
        says(2, "java.lang.ClassNotFoundException", "status", file("log = l\nresource.bank.class ="));
    }

    @Test
    public void whatItRefuses() throws Exception {
        for (String words : List.of("end it.properties", "status", "status it.properties more", "status it.properties --yes", "recover it.properties --name a",
            "failover it.properties --name", "look it.properties", "--yes it.properties", "end it.properties 7:00:00 --outcome")) {
            says(3, "usage: ", words.split(" "));
        }
        says(2, "there is no mirror", "failover", file("log = l"));
        says(2, "there is no mirror.class", "failover", file("log = l\nmirror.url = u"));
        says(2, "java.lang.Object is no DataSource", "failover", file("log = l\nmirror.class = java.lang.Object"));
        says(2, "--left-by needs --outcome commit or --outcome rollback", "end", file("log = l"), "7:00:00", "--left-by", "shop-1");
        says(2, "7:00:00 is no identifier of a branch", "end", file("log = l"), "7:00:00", "--left-by", "shop-1", "--outcome", "commit");
        says(2, "there is no log l", "end", file("log = l"), "7:00:00");
        says(2, "there is no log", "status", file("program = xatm"));
        says(2, "no.such.Class", "status", file("log = l\nresource.bank.class = no.such.Class"));
        says(2, "there is no resource.bank.class", "status", file("log = l\nresource.bank.url = u"));
        says(2, "has no url", "status", file("log = l\nresource.bank.class = java.lang.Object\nresource.bank.url = u"));
        says(2, "there is no log " + temporary.getRoot(), "status", file("log = " + temporary.getRoot() + "/none.db"));
    }
}
