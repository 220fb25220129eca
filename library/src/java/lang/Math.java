package java.lang;

/** Mathematics of integers. */
public final class Math {
    private Math() {
    }

    public static int max(int a, int b) {
        return a >= b ? a : b;
    }

    public static long max(long a, long b) {
        return a >= b ? a : b;
    }

    public static int min(int a, int b) {
        return a <= b ? a : b;
    }

    public static long min(long a, long b) {
        return a <= b ? a : b;
    }

    public static int abs(int a) {
        return a < 0 ? -a : a;
    }

    public static long abs(long a) {
        return a < 0 ? -a : a;
    }

    public static int floorDiv(int a, int b) {
        int q = a / b;
        return (a ^ b) < 0 && q * b != a ? q - 1 : q;
    }

    public static long floorDiv(long a, long b) {
        long q = a / b;
        return (a ^ b) < 0 && q * b != a ? q - 1 : q;
    }

    public static int floorMod(int a, int b) {
        return a - floorDiv(a, b) * b;
    }

    public static long floorMod(long a, long b) {
        return a - floorDiv(a, b) * b;
    }

    public static int addExact(int a, int b) {
        return toInt((long) a + b);
    }

    public static int subtractExact(int a, int b) {
        return toInt((long) a - b);
    }

    public static int multiplyExact(int a, int b) {
        return toInt((long) a * b);
    }

    public static int negateExact(int a) {
        return toInt(-(long) a);
    }

    public static int toIntExact(long a) {
        return toInt(a);
    }

    private static int toInt(long a) {
        if ((int) a != a) {
            throw new ArithmeticException("integer overflow");
        }
        return (int) a;
    }

    public static long addExact(long a, long b) {
        long r = a + b;
        if (((a ^ r) & (b ^ r)) < 0) {
            throw new ArithmeticException("long overflow");
        }
        return r;
    }

    public static long subtractExact(long a, long b) {
        long r = a - b;
        if (((a ^ b) & (a ^ r)) < 0) {
            throw new ArithmeticException("long overflow");
        }
        return r;
    }

    public static long multiplyExact(long a, long b) {
        long r = a * b;
        if (a != 0 && (r / a != b || a == -1 && b == Long.MIN_VALUE)) {
            throw new ArithmeticException("long overflow");
        }
        return r;
    }

    public static long negateExact(long a) {
        return subtractExact(0L, a);
    }

    public static int incrementExact(int a) {
        return toInt((long) a + 1);
    }

    public static long incrementExact(long a) {
        return addExact(a, 1L);
    }

    public static int decrementExact(int a) {
        return toInt((long) a - 1);
    }

    public static long decrementExact(long a) {
        return subtractExact(a, 1L);
    }
}
