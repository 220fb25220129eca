package branch;

import ledger.Account;

/** An account that may fall to its limit. */
final class Credit extends Account {
    private final long limit;

    Credit(String owner, long limit) {
        super(owner);
        this.limit = limit;
    }

    /** The bank's own, with hardly a limit. */
    Credit() {
        limit = 1000000000000L;
    }

    @Override
    protected long limit() {
        return -limit;
    }
}
