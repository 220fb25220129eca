package branch;

import ledger.Account;
import ledger.RefusedException;

/** An account that is never below zero and bears interest. */
class Savings extends Account {
    private int percent = 2;

    /** A year of interest; it calls a protected method of the account that it belongs to. */
    class Year {
        private final boolean leap;

        Year(int year) {
            leap = year % 4 == 0 && (year % 100 != 0 || year % 400 == 0);
        }

        void end() {
            change(balance() * percent / 100 + (leap ? 1 : 0));
        }
    }

    Savings(String owner) {
        super(owner);
    }

    Year year(int year) {
        return new Year(year);
    }

    @Override
    protected long limit() {
        return 0;
    }

    @Override
    public void withdraw(long amount) throws RefusedException {
        if (amount > 50000) {
            throw new RefusedException("above a day's limit");
        }
        super.withdraw(amount);
    }

    /** Whether both accounts changed by the same amount; the field is protected in another package. */
    boolean changedLike(Savings other) {
        return lastChange == other.lastChange;
    }
}
