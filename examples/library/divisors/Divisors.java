import java.util.*;

/** What whole numbers are made of: primes, divisors, powers of a remainder, and what is known of them by name. */
public class Divisors {
    static int[] primesBelow(int limit) {
        boolean[] isCrossed = new boolean[Math.max(limit, 2)];
        int count = 0;
        for (int i = 2; i < limit; i++) {
            if (isCrossed[i]) continue;
            count++;
            for (long j = (long) i * i; j < limit; j += i) isCrossed[(int) j] = true;
        }
        int[] primes = new int[count];
        for (int i = 2, k = 0; i < limit; i++) if (!isCrossed[i]) primes[k++] = i;
        return primes;
    }

    static SortedMap<Long, Integer> factors(long n) {
        SortedMap<Long, Integer> found = new TreeMap<>();
        for (long p = 2; p * p <= n; p += p == 2 ? 1 : 2) {
            for (; n % p == 0; n /= p) {
                Integer times = found.get(p);
                found.put(p, times == null ? 1 : times + 1);
            }
        }
        if (n > 1) found.put(n, 1);
        return found;
    }

    static List<Long> divisors(long n) {
        List<Long> found = new ArrayList<>(Arrays.asList(1L));
        for (Map.Entry<Long, Integer> factor : factors(n).entrySet()) {
            int before = found.size();
            long power = 1;
            for (int k = 0; k < factor.getValue(); k++) {
                power *= factor.getKey();
                for (int i = 0; i < before; i++) found.add(found.get(i) * power);
            }
        }
        Collections.sort(found);
        return found;
    }

    static long gcd(long a, long b) {
        return b == 0 ? Math.abs(a) : gcd(b, a % b);
    }

    /** The greatest common divisor, and two numbers with a x + b y = it. */
    static long[] bezout(long a, long b) {
        if (b == 0) return new long[] {a, 1, 0};
        long[] rest = bezout(b, a % b);
        return new long[] {rest[0], rest[2], rest[1] - a / b * rest[2]};
    }

    static long timesModulo(long a, long b, long m) {
        long product = 0;
        for (a %= m; b > 0; b >>= 1) {
            if ((b & 1) == 1) product = (product + a) % m;
            a = (a << 1) % m;
        }
        return product;
    }

    static long powerModulo(long base, long exponent, long m) {
        long power = 1 % m;
        while (exponent > 0) {
            if (exponent % 2 != 0) power = timesModulo(power, base, m);
            base = timesModulo(base, base, m);
            exponent /= 2;
        }
        return power;
    }

    static boolean isPrime(long n) {
        if (n < 2) return false;
        for (int p : new int[] {2, 3, 5, 7, 11, 13, 17}) if (n % p == 0) return n == p;
        int shift = Long.numberOfTrailingZeros(n - 1);
        witnesses:
        for (int a : new int[] {2, 3, 5, 7, 11, 13, 17}) {
            long x = powerModulo(a, n - 1 >> shift, n);
            if (x == 1 || x == n - 1) continue;
            for (int k = 1; k < shift; k++) {
                x = timesModulo(x, x, n);
                if (x == n - 1) continue witnesses;
            }
            return false;
        }
        return true;
    }

    static long totient(long n) {
        long found = n;
        for (long p : factors(n).keySet()) found -= found / p;
        return found;
    }

    static int collatz(long n) {
        int steps = 0;
        for (; n != 1; steps++) n = (n & 1) == 0 ? n / 2 : Math.addExact(Math.multiplyExact(3L, n), 1L);
        return steps;
    }

    static long root(long n) {
        long low = 0, high = 3037000499L;
        while (low < high) {
            long middle = low + (high - low + 1) / 2;
            if (middle * middle <= n) low = middle; else high = middle - 1;
        }
        return low;
    }

    static String kind(int n) {
        long sum = 0;
        for (long d : divisors(n)) sum += d;
        switch (Long.signum(sum - 2L * n)) {
            case 0: return "perfect";
            case 1: return "abundant";
            default: return "deficient";
        }
    }

    public static void main(String[] args) {
        System.out.println(Arrays.toString(primesBelow(60)) + " " + primesBelow(3000).length + " " + primesBelow(0).length);
        for (long n : new long[] {1, 97, 360, 1001, 65536, 9999991L * 3}) {
            StringBuilder text = new StringBuilder();
            for (Map.Entry<Long, Integer> it : factors(n).entrySet()) {
                if (text.length() > 0) text.append(" * ");
                text.append(it.getKey());
                if (it.getValue() > 1) text.append('^').append(it.getValue());
            }
            System.out.println(n + " = " + (text.length() == 0 ? "1" : text) + ", totient " + totient(n));
        }
        System.out.println(divisors(360));
        System.out.println(gcd(1071, -462) + " " + Arrays.toString(bezout(240, 46)));
        System.out.println(powerModulo(3, 1_000_000_006L, 1_000_000_007L) + " " + powerModulo(2, 100, 1_000_003));
        System.out.println(isPrime(1_000_000_007L) + " " + isPrime(3215031751L) + " " + isPrime(341) + " " + isPrime(67280421310721L));
        System.out.println(collatz(27) + " " + collatz(837799) + " " + root(99) + " " + root(1L << 60));
        Map<String, List<Integer>> kinds = new LinkedHashMap<>();
        for (int n = 2; n <= 30; n++) {
            if (!kinds.containsKey(kind(n))) kinds.put(kind(n), new ArrayList<Integer>());
            kinds.get(kind(n)).add(n);
        }
        System.out.println(kinds);
        System.out.println(Integer.toBinaryString(360) + " " + Integer.toHexString(-360) + " " + Long.toString(360, 7) + " "
            + Integer.parseInt("zz", 36)
            + " " + Integer.toOctalString(64) + " " + Long.toHexString(Long.MIN_VALUE) + " " + Integer.bitCount(360) + " "
            + Integer.reverse(1));
        try {
            Math.multiplyExact(Long.MAX_VALUE, 2L);
        } catch (ArithmeticException e) {
            System.out.println(e.getMessage());
        }
        try {
            System.out.println(Math.toIntExact(1L << 40));
        } catch (ArithmeticException e) {
            System.out.println(e.getMessage() + " " + Math.floorMod(-7, 3) + " " + -7 % 3 + " " + Math.floorDiv(-7, 2));
        }
    }
}
