package garterfossil;

import java.lang.reflect.Field;
import java.lang.reflect.Modifier;
import java.util.HashMap;
import java.util.Map;
import javax.transaction.xa.XAException;
import javax.transaction.xa.XAResource;

/** XA's return codes, as far as they are reported to the coordinator (C193, section 4.5). */
final class Code {
    static final int OK = XAResource.XA_OK, RDONLY = XAResource.XA_RDONLY, RETRY = XAException.XA_RETRY;
    static final int HEURMIX = XAException.XA_HEURMIX, HEURRB = XAException.XA_HEURRB, HEURHAZ = XAException.XA_HEURHAZ;
    static final int NOTA = XAException.XAER_NOTA;
    private static final Map<Integer, String> NAMES = new HashMap<>(Map.of(OK, "XA_OK", RDONLY, "XA_RDONLY"));

    static {
        try {
            for (Field field : XAException.class.getFields()) {
                // XA_RBBASE and XA_RBEND are the first and the last of some that have names of
                // their own.
                if (Modifier.isStatic(field.getModifiers()) && !field.getName().matches("XA_RB(BASE|END)")) {
                    NAMES.put(field.getInt(null), field.getName());
                }
            }
        } catch (IllegalAccessException error) {
            throw new ExceptionInInitializerError(error);
        }
    }

    private Code() {
    }

    /** Whether the code says that the branch is rolled back, or can only be. */
    static boolean isRollback(int code) {
        return code >= XAException.XA_RBBASE && code <= XAException.XA_RBEND;
    }

    /** Whether the code says that the resource ended the branch by itself. */
    static boolean isHeuristic(int code) {
        return code >= HEURMIX && code <= HEURHAZ;
    }

    /**
     * Whether the answer to a call that ends a prepared branch says that the resource had ended it
     * by itself.
     */
    static boolean isAlone(String call, int code) {
        return isHeuristic(code) || call.equals("xa_commit") && (isRollback(code) || code == XAException.XAER_RMERR);
    }

    /** XA's name of the code. */
    static String name(int code) {
        return NAMES.getOrDefault(code, "code " + code);
    }
}
