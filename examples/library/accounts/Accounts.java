import java.util.HashMap;
import java.util.Map;

class InsufficientFundsException extends Exception {
    private final int missing;
    public InsufficientFundsException(String message, int missing) {
        super(message);
        this.missing = missing;
    }
    public int getMissing() { return missing; }
}

class Account {
    private static int nextId = 1000;
    private final int id;
    private final String owner;
    private int balance;
    Account(String owner, int initial) {
        if (initial < 0) throw new IllegalArgumentException("Initial balance must not be negative: " + initial);
        this.id = nextId++;
        this.owner = owner;
        this.balance = initial;
    }
    void withdraw(int amount) throws InsufficientFundsException {
        if (amount > balance) throw new InsufficientFundsException("Cannot withdraw " + amount + " from " + owner, amount - balance);
        balance -= amount;
    }
    void deposit(int amount) { balance += amount; }
    int getId() { return id; }
    @Override public String toString() { return String.format("#%d %-6s %5d", id, owner, balance); }
}

/** Exceptions: thrown, caught, with a cause, and made by the machine. */
public class Accounts {
    public static void main(String[] args) {
        Map<Integer, Account> bank = new HashMap<>();
        String[] names = {"Ann", "Bob", "Carla"};
        for (int i = 0; i < names.length; i++) {
            Account a = new Account(names[i], 100 * i);
            bank.put(a.getId(), a);
        }
        try {
            bank.get(1001).withdraw(30);
            bank.get(1000).withdraw(50);
            System.out.println("not reached");
        } catch (InsufficientFundsException e) {
            System.out.println("Error: " + e.getMessage() + " (missing " + e.getMissing() + ")");
        } finally {
            System.out.println("finally");
        }
        try {
            new Account("Dan", -1);
        } catch (IllegalArgumentException e) {
            System.out.println(e.getMessage());
        }
        try {
            Account none = bank.get(42);
            none.deposit(1);
        } catch (NullPointerException e) {
            System.out.println("no such account");
        }
        try {
            System.out.println(10 / (names.length - 3));
        } catch (ArithmeticException e) {
            System.out.println("Caught: " + e.getMessage());
        }
        try {
            System.out.println(names[3]);
        } catch (ArrayIndexOutOfBoundsException e) {
            System.out.println("no fourth name");
        }
        try {
            Integer.parseInt("12x");
        } catch (NumberFormatException e) {
            System.out.println(e.getMessage());
        }
        try {
            try {
                throw new IllegalStateException("inner");
            } catch (IllegalStateException e) {
                throw new RuntimeException("outer", e);
            }
        } catch (RuntimeException e) {
            System.out.println(e.getMessage() + " caused by " + e.getCause().getMessage() + " " + e.getCause());
        }
        for (Account a : bank.values()) System.out.println(a);
    }
}
