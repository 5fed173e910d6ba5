import javax.transaction.xa.Xid;

/** The identifier of a branch, as a database's own driver gets it. */
final class OlderXid implements Xid {
    private final byte[] gtrid;
    private final byte[] bqual;

    OlderXid(byte[] gtrid, byte[] bqual) {
        this.gtrid = gtrid;
        this.bqual = bqual;
    }

    @Override
    public int getFormatId() {
        return 7;
    }

    @Override
    public byte[] getGlobalTransactionId() {
        return gtrid.clone();
    }

    @Override
    public byte[] getBranchQualifier() {
        return bqual.clone();
    }
}
