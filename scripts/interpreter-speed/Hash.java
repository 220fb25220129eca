/** SHA-256 of blocks, one behind the other. */
public class Hash {
    static final int[] PRIMES = new int[64];
    static final int[] ROUND = new int[64];
    static final int[] WORDS = new int[64];
    static final int[] STATE = new int[8];

    /** The first 32 bits behind the point of the root of a prime, by halving: of the third power, or of the second. */
    static int fraction(int prime, boolean isCube) {
        long low = 0;
        long high = 0x7_ffff_ffffL;
        while (low + 1 < high) {
            long middle = (low + high) >>> 1;
            if (isAbove(middle, prime, isCube)) {
                high = middle;
            } else {
                low = middle;
            }
        }
        return (int) low;
    }

    /** Whether a number of 2 to the -32 has a power above a prime. */
    static boolean isAbove(long number, int prime, boolean isCube) {
        long whole = number >>> 32;
        long part = number & 0xffff_ffffL;
        // The square in 2 to the -32, cut.
        long square = ((whole * whole) << 32) + 2 * whole * part + ((part * part) >>> 32);
        if (!isCube) {
            return (square >>> 32) >= prime;
        }
        long squareWhole = square >>> 32;
        long squarePart = square & 0xffff_ffffL;
        long cube = ((squareWhole * whole) << 32) + squareWhole * part + squarePart * whole + ((squarePart * part) >>> 32);
        return (cube >>> 32) >= prime;
    }

    static void begin() {
        int count = 0;
        for (int number = 2; count < 64; number++) {
            boolean isPrime = true;
            for (int i = 0; i < count; i++) {
                if (number % PRIMES[i] == 0) {
                    isPrime = false;
                }
            }
            if (isPrime) {
                PRIMES[count] = number;
                ROUND[count] = fraction(number, true);
                if (count < 8) {
                    STATE[count] = fraction(number, false);
                }
                count++;
            }
        }
    }

    static int turned(int word, int bits) {
        return (word >>> bits) | (word << (32 - bits));
    }

    static void mix() {
        for (int i = 16; i < 64; i++) {
            int early = WORDS[i - 15];
            int late = WORDS[i - 2];
            int one = turned(early, 7) ^ turned(early, 18) ^ (early >>> 3);
            int two = turned(late, 17) ^ turned(late, 19) ^ (late >>> 10);
            WORDS[i] = WORDS[i - 16] + one + WORDS[i - 7] + two;
        }
        int a = STATE[0];
        int b = STATE[1];
        int c = STATE[2];
        int d = STATE[3];
        int e = STATE[4];
        int f = STATE[5];
        int g = STATE[6];
        int h = STATE[7];
        for (int i = 0; i < 64; i++) {
            int one = h + (turned(e, 6) ^ turned(e, 11) ^ turned(e, 25)) + ((e & f) ^ (~e & g)) + ROUND[i] + WORDS[i];
            int two = (turned(a, 2) ^ turned(a, 13) ^ turned(a, 22)) + ((a & b) ^ (a & c) ^ (b & c));
            h = g;
            g = f;
            f = e;
            e = d + one;
            d = c;
            c = b;
            b = a;
            a = one + two;
        }
        STATE[0] += a;
        STATE[1] += b;
        STATE[2] += c;
        STATE[3] += d;
        STATE[4] += e;
        STATE[5] += f;
        STATE[6] += g;
        STATE[7] += h;
    }

    public static void main(String[] arguments) {
        begin();
        for (int block = 0; block < 16_000; block++) {
            for (int i = 0; i < 16; i++) {
                WORDS[i] = block * 16 + i;
            }
            mix();
        }
        for (int i = 0; i < 8; i++) {
            host.Io.write(STATE[i]);
        }
    }
}
