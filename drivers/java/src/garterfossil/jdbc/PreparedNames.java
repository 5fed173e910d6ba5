package garterfossil.jdbc;

import garterfossil.BranchXid;
import java.util.Base64;
import java.util.Optional;
import javax.transaction.xa.Xid;

/**
 * The names of prepared branches at PostgreSQL. They are the coordinator's texts of the
 * identifiers, as in {@code 7:<digits>:<digits>}, so that whatever works over the same log finds
 * them. Drivers before this one had them named by PostgreSQL's own driver, in base64.
 */
final class PreparedNames {
    private PreparedNames() {
    }

    static String of(Xid xid) {
        return BranchXid.copyOf(xid).toString();
    }

    /** As drivers before this one have it. */
    static String older(Xid xid) {
        Base64.Encoder base64 = Base64.getEncoder();
        return xid.getFormatId() + "_" + base64.encodeToString(xid.getGlobalTransactionId()) + "_"
            + base64.encodeToString(xid.getBranchQualifier());
    }

    /** The identifier that a name is of, in either way, if it is one. */
    static Optional<Xid> parse(String name) {
        try {
            boolean isOlder = name.contains("_");
            Xid xid = isOlder ? parseOlder(name.split("_", -1)) : BranchXid.parse(name);
            return Optional.of(xid).filter(it -> name.equals(isOlder ? older(it) : of(it)));
        } catch (IllegalArgumentException | IndexOutOfBoundsException error) {
            return Optional.empty();
        }
    }

    private static Xid parseOlder(String[] parts) {
        return new BranchXid(Integer.parseInt(parts[0]), Base64.getDecoder().decode(parts[1]), Base64.getDecoder().decode(parts[2]));
    }
}
