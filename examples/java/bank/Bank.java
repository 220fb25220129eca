package branch;

import host.Io;
import ledger.Account;
import ledger.Audited;
import ledger.RefusedException;
import ledger.ShortException;

/** Moves money between accounts, and says what was refused. */
@Audited(by = "branch")
public class Bank {
    private static int refusals;

    public static void main(String[] arguments) throws RefusedException {
        Savings anna = new Savings("Anna");
        Savings carl = new Savings("Carl");
        Account bert = new Credit("Bert", 10000L);
        Account[] accounts = {anna, bert, carl};
        anna.deposit(123456);
        carl.deposit(123456);
        print(anna.changedLike(carl) ? "alike\n" : "different\n");
        move(anna, bert, 40000);
        move(anna, bert, 60000);
        move(bert, anna, 50001);
        move(bert, anna, 50000);
        move(anna, bert, 0);
        move(null, bert, 1);
        Savings.Year year = carl.year(2016);
        year.end();
        report(accounts);
        try {
            new Savings("");
        } catch (IllegalArgumentException fault) {
            print(fault.getMessage());
            print("\n");
        }
        print(old(bert));
        print(" refusals ");
        print(refusals);
        print("\n");
    }

    /** Moves all of the amount, or nothing. */
    private static void move(Account from, Account to, long amount) {
        boolean done = false;
        try {
            try {
                from.withdraw(amount);
                to.deposit(amount);
                done = true;
            } catch (NullPointerException fault) {
                throw new RefusedException("no account");
            } finally {
                print(amount);
                print(done ? " moved" : " not moved");
            }
        } catch (ShortException fault) {
            refusals++;
            print(": ");
            print(fault.getMessage());
            print(" ");
            print(fault.missing());
        } catch (RefusedException fault) {
            refusals++;
            print(": ");
            print(fault.getMessage());
        } finally {
            print("\n");
        }
    }

    private static void report(Account... accounts) {
        for (@Audited Account account : accounts) {
            print(account.number());
            print(" ");
            print(account.owner());
            print(" ");
            print(account.balance());
            print("\n");
        }
    }

    @SuppressWarnings("deprecation")
    private static int old(Account account) {
        return account.getNumber();
    }

    private static void print(String text) {
        for (int place = 0; place < text.length(); place++) {
            Io.write(text.charAt(place));
        }
    }

    private static void print(long number) {
        if (number < 0) {
            Io.write('-');
        }
        digits(number < 0 ? number : -number);
    }

    /** The digits of a number that isn't positive. */
    private static void digits(long negative) {
        if (negative <= -10) {
            digits(negative / 10);
        }
        Io.write((int) ('0' - negative % 10));
    }
}
