package java.util;

/** The JDK's sequence of a seed. Without one the seed is fixed: the machine knows no chance. */
public class Random implements java.io.Serializable {
    private long seed;

    public Random() {
        this(42);
    }

    public Random(long seed) {
        setSeed(seed);
    }

    public void setSeed(long seed) {
        this.seed = (seed ^ 0x5deece66dL) & (1L << 48) - 1;
    }

    protected int next(int bits) {
        seed = seed * 0x5deece66dL + 0xbL & (1L << 48) - 1;
        return (int) (seed >>> 48 - bits);
    }

    public int nextInt() {
        return next(32);
    }

    public int nextInt(int bound) {
        if (bound <= 0) {
            throw new IllegalArgumentException("bound must be positive");
        }
        int r = next(31);
        int m = bound - 1;
        if ((bound & m) == 0) {
            return (int) ((long) bound * r >> 31);
        }
        int u = r;
        while (true) {
            r = u % bound;
            if (u - r + m >= 0) {
                return r;
            }
            u = next(31);
        }
    }

    public long nextLong() {
        return ((long) next(32) << 32) + next(32);
    }

    public boolean nextBoolean() {
        return next(1) != 0;
    }

    public void nextBytes(byte[] bytes) {
        int r = 0;
        for (int i = 0; i < bytes.length; i++) {
            r = i % 4 == 0 ? nextInt() : r >> 8;
            bytes[i] = (byte) r;
        }
    }
}
