package garterfossil;

import java.util.ArrayList;
import java.util.Collections;
import java.util.List;
import java.util.logging.Handler;
import java.util.logging.Level;
import java.util.logging.LogRecord;
import java.util.logging.Logger;

/** What the driver says to its logger, from now on until this is closed. */
public final class Logged extends Handler implements AutoCloseable {
    private final Logger logger = Logger.getLogger("garterfossil");
    public final List<String> said = Collections.synchronizedList(new ArrayList<>());

    public Logged() {
        logger.setLevel(Level.ALL);
        logger.addHandler(this);
    }

    @Override
    public void publish(LogRecord record) {
        said.add(record.getMessage());
    }

    @Override
    public void flush() {
    }

    @Override
    public void close() {
        logger.removeHandler(this);
        logger.setLevel(null);
    }
}
