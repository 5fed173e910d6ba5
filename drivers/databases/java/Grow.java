import garterfossil.Fault;
import garterfossil.Manager;
import garterfossil.jdbc.JdbcResource;
import garterfossil.jta.JtaTransactionManager;
import java.nio.file.Path;
import java.sql.Connection;
import java.sql.Statement;
import java.util.ArrayList;
import java.util.Arrays;
import java.util.List;

/**
 * One transaction over the databases that are given, each with the name that it has in the log: it
 * writes a row to each. Prints that it is committed, or why it can't be.
 *
 * <p>Usage: Grow LOG PROGRAM TOKEN NAME URL [NAME URL ..]
 */
public class Grow {
    public static void main(String[] words) throws Exception {
        Manager.Builder builder = Manager.over(Path.of(words[0])).program(words[1]);
        List<JdbcResource> resources = new ArrayList<>();
        List<String> given = Arrays.asList(words).subList(3, words.length);
        for (int at = 0; at < given.size(); at += 2) {
            resources.add(JdbcResource.of(given.get(at), Speed.source(given.get(at + 1))));
            builder.resource(resources.get(resources.size() - 1));
        }
        try (Manager manager = builder.start()) {
            JtaTransactionManager jta = new JtaTransactionManager(manager);
            jta.begin();
            for (JdbcResource resource : resources) {
                try (Connection connection = resource.dataSource(manager).getConnection(); Statement statement = connection.createStatement()) {
                    statement.execute("INSERT INTO alone VALUES ('" + words[2] + "')");
                }
            }
            jta.commit();
            System.out.println("committed");
        } catch (Fault error) {
            System.out.println(error.getMessage());
        }
        System.exit(0);
    }
}
