import host.Io;

/** Prints the primes below a hundred, by the sieve of Eratosthenes. */
public class Primes {
    private static final int LIMIT = 100;

    public static void main(String[] arguments) {
        boolean[] composite = new boolean[LIMIT];
        for (int number = 2; number < LIMIT; number++) {
            if (composite[number]) {
                continue;
            }
            print(number);
            Io.write(' ');
            for (int multiple = number * number; multiple < LIMIT; multiple += number) {
                composite[multiple] = true;
            }
        }
        Io.write('\n');
    }

    private static void print(int number) {
        if (number >= 10) {
            print(number / 10);
        }
        Io.write('0' + number % 10);
    }
}
