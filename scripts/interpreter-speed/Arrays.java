/** Arrays of ints and bytes: a sieve and a sort, over and over. */
public class Arrays {
    static int primes(boolean[] sieve) {
        int count = 0;
        for (int i = 0; i < sieve.length; i++) {
            sieve[i] = false;
        }
        for (int i = 2; i < sieve.length; i++) {
            if (!sieve[i]) {
                count++;
                for (int k = i + i; k < sieve.length; k += i) {
                    sieve[k] = true;
                }
            }
        }
        return count;
    }

    static void sort(int[] values) {
        for (int i = 0; i < values.length; i++) {
            values[i] = (i * 7_919) % 3_001;
        }
        for (int i = 1; i < values.length; i++) {
            int value = values[i];
            int k = i - 1;
            while (k >= 0 && values[k] > value) {
                values[k + 1] = values[k];
                k--;
            }
            values[k + 1] = value;
        }
    }

    public static void main(String[] arguments) {
        boolean[] sieve = new boolean[2_000_000];
        int[] values = new int[3_000];
        int sum = 0;
        for (int round = 0; round < 6; round++) {
            sum += primes(sieve);
            sort(values);
            sum += values[1_000];
        }
        host.Io.write(sum);
    }
}
