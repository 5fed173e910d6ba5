package garterfossil;

/** What a driver's own work may end in. Its subclasses say what is so then. */
@SuppressWarnings("serial")
public abstract class Fault extends Exception {
    Fault(String text, Throwable cause) {
        super(text, cause);
    }

    /** An exception with its cause, if its class has no constructor for that. */
    public static <E extends Exception> E caused(E error, Throwable cause) {
        error.initCause(cause);
        return error;
    }

    /** The coordinator has ended, or its log failed: the session is over. */
    public static final class Gone extends Fault {
        /** The status that the program ended with; 0 where that isn't known. */
        final int status;

        Gone(String text) {
            this(text, 0);
        }

        Gone(String text, int status) {
            super("the coordinator is gone: " + text, null);
            this.status = status;
        }
    }

    /**
     * The coordinator says that a move isn't one, or not now, and nothing has changed
     * (docs/MOVES.md).
     */
    public static final class Refused extends Fault {
        Refused(String text) {
            super(text, null);
        }
    }

    /**
     * A connection is lost, or there is none, or a resource has no answer: nobody knows whether the
     * call that was under way was done.
     */
    public static final class Lost extends Fault {
        /** One of which the cause, if there is one, says more. */
        public Lost(String text, Throwable cause) {
            super(text + (cause == null ? "" : ": " + cause.getMessage()), cause);
        }
    }

    /** What is asked for didn't come free in time, or isn't allowed now. Nothing was begun. */
    public static final class Unavailable extends Fault {
        /** One that says why, and what to do. */
        public Unavailable(String text) {
            super(text, null);
        }

        Unavailable(String text, Throwable cause) {
            super(text + ": " + cause.getMessage(), cause);
        }
    }

    /**
     * The transaction is rolled back at each resource. One that can't be reached now is told so as
     * soon as it can.
     */
    public static final class RolledBack extends Fault {
        RolledBack(String text, Throwable cause) {
            super(text, cause);
        }
    }

    /**
     * Nobody could tell how the transaction ended. Over several resources it ends at all of them
     * alike.
     */
    public static final class OutcomeUnknown extends Fault {
        OutcomeUnknown(String text, Throwable cause) {
            super(text, cause);
        }
    }

    /** A resource had ended its branch by itself. The coordinator's log has a record of it. */
    public static final class Heuristic extends Fault {
        /** Whether all branches are rolled back although it was decided to commit. */
        public final boolean isAllRolledBack;
        /** Whether nobody knows how some branch ended (XA_HEURHAZ). */
        public final boolean isHazard;

        Heuristic(String text, boolean isAllRolledBack, boolean isHazard) {
            super(text, null);
            this.isAllRolledBack = isAllRolledBack;
            this.isHazard = isHazard;
        }
    }
}
