package ledger;

/** There is not enough on an account. */
public final class ShortException extends RefusedException {
    private static final long serialVersionUID = 1L;

    private final long missing;

    ShortException(long missing) {
        super("short of");
        this.missing = missing;
    }

    public long missing() {
        return missing;
    }
}
