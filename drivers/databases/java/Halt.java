import garterfossil.Manager;
import garterfossil.jdbc.JdbcResource;
import garterfossil.jta.JtaTransactionManager;
import java.nio.file.Path;
import java.sql.Connection;
import java.sql.Statement;

/**
 * Ends its own process once the first of two databases has committed: the other is prepared then,
 * and its commit decided.
 *
 * <p>Usage: Halt LOG PROGRAM URL URL TOKEN [MIRROR], that of the row which it writes to both, and
 * the database that mirrors the log.
 */
public class Halt {
    public static void main(String[] words) throws Exception {
        Manager.Builder builder = Manager.over(Path.of(words[0])).program(words[1]).helpers(0);
        JdbcResource[] resources = new JdbcResource[2];
        Hooks[] hooks = new Hooks[2];
        for (int number = 0; number < 2; number++) {
            hooks[number] = new Hooks(Speed.source(words[2 + number]));
            resources[number] = JdbcResource.of("db" + number, hooks[number].source());
            builder.resource(resources[number]);
        }
        if (words.length > 5) {
            builder.mirror(Speed.plain(words[5]));
        }
        Manager manager = builder.start();
        JtaTransactionManager jta = new JtaTransactionManager(manager);
        jta.begin();
        for (JdbcResource resource : resources) {
            try (Connection connection = resource.dataSource(manager).getConnection(); Statement statement = connection.createStatement()) {
                statement.execute("INSERT INTO alone VALUES ('" + words[4] + "')");
            }
        }
        hooks[0].at("after commit", it -> Runtime.getRuntime().halt(9));
        jta.commit();
    }
}
