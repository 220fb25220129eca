package java.lang;

public final class Integer extends Number implements Comparable<Integer> {
    public static final int MIN_VALUE = 0x80000000;
    public static final int MAX_VALUE = 0x7fffffff;
    public static final int SIZE = 32;
    public static final int BYTES = 4;

    /** Those of -128 to 127, each made when it is first asked for. */
    private static final Integer[] SMALL = new Integer[256];

    private final int value;

    public Integer(int value) {
        this.value = value;
    }

    public static Integer valueOf(int i) {
        if (i < -128 || i > 127) {
            return new Integer(i);
        }
        Integer small = SMALL[i + 128];
        if (small == null) {
            small = new Integer(i);
            SMALL[i + 128] = small;
        }
        return small;
    }

    public static Integer valueOf(String text) {
        return valueOf(parseInt(text, 10));
    }

    public static Integer valueOf(String text, int radix) {
        return valueOf(parseInt(text, radix));
    }

    public static int parseInt(String text) {
        return parseInt(text, 10);
    }

    public static int parseInt(String text, int radix) {
        long l = Long.parse(text, radix);
        if (l < MIN_VALUE || l > MAX_VALUE) {
            throw Long.bad(text, radix);
        }
        return (int) l;
    }

    public int intValue() {
        return value;
    }

    public long longValue() {
        return value;
    }

    public int hashCode() {
        return value;
    }

    public boolean equals(Object o) {
        return o instanceof Integer && ((Integer) o).value == value;
    }

    public int compareTo(Integer other) {
        return compare(value, other.value);
    }

    public String toString() {
        return toString(value);
    }

    public static String toString(int i) {
        return Long.toString((long) i);
    }

    public static String toString(int i, int radix) {
        return Long.toString((long) i, radix);
    }

    public static String toBinaryString(int i) {
        return Long.unsigned(i & 0xffffffffL, 1);
    }

    public static String toOctalString(int i) {
        return Long.unsigned(i & 0xffffffffL, 3);
    }

    public static String toHexString(int i) {
        return Long.unsigned(i & 0xffffffffL, 4);
    }

    public static int hashCode(int i) {
        return i;
    }

    public static int compare(int a, int b) {
        return a < b ? -1 : a == b ? 0 : 1;
    }

    public static int signum(int i) {
        return i >> 31 | -i >>> 31;
    }

    public static int max(int a, int b) {
        return a >= b ? a : b;
    }

    public static int min(int a, int b) {
        return a <= b ? a : b;
    }

    public static int sum(int a, int b) {
        return a + b;
    }

    public static int bitCount(int i) {
        int n = 0;
        while (i != 0) {
            i &= i - 1;
            n++;
        }
        return n;
    }

    public static int reverse(int i) {
        int r = 0;
        for (int k = 0; k < 32; k++) {
            r = r << 1 | i & 1;
            i >>>= 1;
        }
        return r;
    }

    public static int numberOfLeadingZeros(int i) {
        int n = 0;
        while (n < 32 && i >= 0) {
            if (i == 0) {
                return 32;
            }
            i <<= 1;
            n++;
        }
        return n;
    }

    public static int numberOfTrailingZeros(int i) {
        if (i == 0) {
            return 32;
        }
        int n = 0;
        while ((i & 1) == 0) {
            i >>>= 1;
            n++;
        }
        return n;
    }

    public static int highestOneBit(int i) {
        return i == 0 ? 0 : MIN_VALUE >>> numberOfLeadingZeros(i);
    }

    public static int lowestOneBit(int i) {
        return i & -i;
    }

    public static int rotateLeft(int i, int by) {
        return i << by | i >>> -by;
    }

    public static int rotateRight(int i, int by) {
        return i >>> by | i << -by;
    }

    public static int divideUnsigned(int a, int b) {
        return (int) ((a & 0xffffffffL) / (b & 0xffffffffL));
    }

    public static int remainderUnsigned(int a, int b) {
        return (int) ((a & 0xffffffffL) % (b & 0xffffffffL));
    }

    public static long toUnsignedLong(int i) {
        return i & 0xffffffffL;
    }

    public Integer(String text) {
        this(parseInt(text, 10));
    }

    /** A number as in a program: with a sign, and 0x, # or 0 in front of other digits than decimal ones. */
    public static Integer decode(String text) {
        long l = Long.decode(text).longValue();
        if (l < MIN_VALUE || l > MAX_VALUE) {
            throw Long.bad(text, 10);
        }
        return valueOf((int) l);
    }

    public static int reverseBytes(int i) {
        return i << 24 | (i & 0xff00) << 8 | i >>> 8 & 0xff00 | i >>> 24;
    }

    public static int compareUnsigned(int a, int b) {
        return compare(a + MIN_VALUE, b + MIN_VALUE);
    }

    public static String toUnsignedString(int i) {
        return Long.toString(i & 0xffffffffL);
    }

    public static String toUnsignedString(int i, int radix) {
        return Long.toString(i & 0xffffffffL, radix);
    }

    public static int parseUnsignedInt(String text) {
        return parseUnsignedInt(text, 10);
    }

    public static int parseUnsignedInt(String text, int radix) {
        if (text != null && text.startsWith("-")) {
            throw new NumberFormatException("Illegal leading minus sign on unsigned string " + text + ".");
        }
        long l = Long.parse(text, radix);
        if (l > 0xffffffffL) {
            throw new NumberFormatException("String value " + text + " exceeds range of unsigned int.");
        }
        return (int) l;
    }
}
