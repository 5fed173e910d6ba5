package garterfossil;

import java.nio.ByteBuffer;
import java.nio.charset.StandardCharsets;
import java.util.Arrays;
import java.util.HexFormat;
import javax.transaction.xa.Xid;

/**
 * The identifier of a branch. That of a manager has format 7, the manager's name and 16 bytes of
 * the transaction, 4 bytes of the thread and 4 of the resource manager.
 */
public final class BranchXid implements Xid {
    static final int FORMAT = 7;
    private static final int TRANSACTION = 16, QUALIFIER = 8;
    private static final HexFormat HEX = HexFormat.of();

    private final int format;
    private final byte[] gtrid;
    private final byte[] bqual;

    /** The one of these parts. */
    public BranchXid(int format, byte[] gtrid, byte[] bqual) {
        this.format = format;
        this.gtrid = gtrid.clone();
        this.bqual = bqual.clone();
    }

    /**
     * The branch of a transaction, by its 32 digits, on the line of a thread to a resource manager.
     */
    static BranchXid of(String name, String transaction, int thread, int rm) {
        byte[] bytes = name.getBytes(StandardCharsets.US_ASCII);
        byte[] gtrid = Arrays.copyOf(bytes, bytes.length + TRANSACTION);
        System.arraycopy(HEX.parseHex(transaction), 0, gtrid, bytes.length, TRANSACTION);
        return new BranchXid(FORMAT, gtrid, ByteBuffer.allocate(QUALIFIER).putInt(thread).putInt(rm).array());
    }

    /**
     * The one that the coordinator's text names, as in {@code 7:<digits>:<digits>}. Throws
     * IllegalArgumentException if it names none.
     */
    public static BranchXid parse(String text) {
        String[] parts = text.split(":", -1);
        BranchXid found = parts.length != 3 ? null : new BranchXid(Integer.parseInt(parts[0]), HEX.parseHex(parts[1]), HEX.parseHex(parts[2]));
        // Another spelling is the name of another branch.
        if (found == null || !found.toString().equals(text)) {
            throw new IllegalArgumentException("no branch: " + text);
        }
        return found;
    }

    /** An identifier as a resource lists it. */
    public static BranchXid copyOf(Xid xid) {
        return new BranchXid(xid.getFormatId(), xid.getGlobalTransactionId(), xid.getBranchQualifier());
    }

    /** Whether it is one of a manager, of whatever name. */
    boolean isOfAManager() {
        return format == FORMAT && gtrid.length >= TRANSACTION && bqual.length == QUALIFIER;
    }

    /** Whether it is one of the manager of this name at this resource manager. */
    boolean isOf(String name, int rm) {
        return isOfAManager() && manager().equals(name) && rm() == rm;
    }

    /** The name of its manager, which may be empty. */
    String manager() {
        return new String(gtrid, 0, gtrid.length - TRANSACTION, StandardCharsets.ISO_8859_1);
    }

    /** The number of its resource manager. */
    int rm() {
        return ByteBuffer.wrap(bqual).getInt(4);
    }

    /** The transaction's 32 digits, as moves name it. */
    String transaction() {
        return HEX.formatHex(gtrid, gtrid.length - TRANSACTION, gtrid.length);
    }

    /** The incarnation of the coordinator in which the transaction began. */
    long incarnation() {
        return ByteBuffer.wrap(gtrid, gtrid.length - TRANSACTION, 8).getLong();
    }

    @Override
    public int getFormatId() {
        return format;
    }

    @Override
    public byte[] getGlobalTransactionId() {
        return gtrid.clone();
    }

    @Override
    public byte[] getBranchQualifier() {
        return bqual.clone();
    }

    // Resources compare identifiers, and an array is equal to itself alone.
    @Override
    public boolean equals(Object other) {
        return other instanceof BranchXid it && format == it.format && Arrays.equals(gtrid, it.gtrid) && Arrays.equals(bqual, it.bqual);
    }

    @Override
    public int hashCode() {
        return 31 * Arrays.hashCode(gtrid) + Arrays.hashCode(bqual);
    }

    @Override
    public String toString() {
        return format + ":" + HEX.formatHex(gtrid) + ":" + HEX.formatHex(bqual);
    }
}
