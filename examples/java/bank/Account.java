package ledger;

/** An account with an owner and a balance. */
@Audited(by = "ledger", times = 12, reasons = {"law", "order"})
public abstract class Account {
    private static int opened;

    @Audited
    protected final String owner;
    protected transient long lastChange;
    private volatile long balance;
    private final int number;

    {
        number = ++opened;
    }

    protected Account(String owner) {
        if (owner == null || owner.length() == 0) {
            throw new IllegalArgumentException("nobody's account");
        }
        this.owner = owner;
    }

    protected Account() {
        this("bank");
    }

    /** How far the balance may fall. */
    protected abstract long limit();

    @Audited(mark = '+', since = 20140318L)
    public final void deposit(@Audited(by = "cashier") long amount) throws RefusedException {
        if (amount <= 0) {
            throw new RefusedException("not an amount");
        }
        change(amount);
    }

    public void withdraw(long amount) throws RefusedException {
        if (amount <= 0L) {
            throw new RefusedException("not an amount");
        }
        if (balance - amount < limit()) {
            throw new ShortException(limit() - (balance - amount));
        }
        change(-amount);
    }

    protected void change(long amount) {
        balance += amount;
        lastChange = amount;
    }

    public long balance() {
        return balance;
    }

    public final String owner() {
        return owner;
    }

    public int number() {
        return number;
    }

    /** The old name of number. */
    @Deprecated
    public int getNumber() {
        return number();
    }
}
