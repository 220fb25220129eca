/** The primes below a million, over an array of booleans. */
public class Sieve {
    static int primes(boolean[] isNoPrime) {
        int count = 0;
        for (int i = 0; i < isNoPrime.length; i++) {
            isNoPrime[i] = false;
        }
        for (int i = 2; i < isNoPrime.length; i++) {
            if (!isNoPrime[i]) {
                count++;
                for (int multiple = i + i; multiple < isNoPrime.length; multiple += i) {
                    isNoPrime[multiple] = true;
                }
            }
        }
        return count;
    }

    public static void main(String[] arguments) {
        boolean[] isNoPrime = new boolean[1_000_000];
        int sum = 0;
        for (int round = 0; round < 12; round++) {
            sum += primes(isNoPrime);
        }
        host.Io.write(sum);
    }
}
