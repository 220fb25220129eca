package java.lang;

public final class Long extends Number implements Comparable<Long> {
    public static final long MIN_VALUE = 0x8000000000000000L;
    public static final long MAX_VALUE = 0x7fffffffffffffffL;
    public static final int SIZE = 64;
    public static final int BYTES = 8;

    private static final Long[] SMALL = new Long[256];

    private final long value;

    public Long(long value) {
        this.value = value;
    }

    public static Long valueOf(long l) {
        if (l < -128 || l > 127) {
            return new Long(l);
        }
        int at = (int) l + 128;
        if (SMALL[at] == null) {
            SMALL[at] = new Long(l);
        }
        return SMALL[at];
    }

    public static Long valueOf(String text) {
        return valueOf(parse(text, 10));
    }

    public static long parseLong(String text) {
        return parse(text, 10);
    }

    public static long parseLong(String text, int radix) {
        return parse(text, radix);
    }

    static NumberFormatException bad(String text, int radix) {
        String under = radix == 10 ? "" : " under radix " + radix;
        return new NumberFormatException(text == null ? "Cannot parse null string" : "For input string: \"" + text + "\"" + under);
    }

    static long parse(String text, int radix) {
        if (text == null) {
            throw bad(text, 10);
        }
        if (radix < Character.MIN_RADIX || radix > Character.MAX_RADIX) {
            throw new NumberFormatException("radix " + radix + (radix < Character.MIN_RADIX ? " less than Character.MIN_RADIX"
                : " greater than Character.MAX_RADIX"));
        }
        int n = text.length();
        int i = 0;
        boolean negative = false;
        if (n > 0 && (text.charAt(0) == '-' || text.charAt(0) == '+')) {
            negative = text.charAt(0) == '-';
            i = 1;
        }
        if (i >= n) {
            throw bad(text, radix);
        }
        long least = negative ? MIN_VALUE : -MAX_VALUE;
        long most = least / radix;
        long sum = 0;                       // the number's negative
        for (; i < n; i++) {
            char c = text.charAt(i);
            int digit = c >= '0' && c <= '9' && c - '0' < radix ? c - '0' : Character.digit(c, radix);
            if (digit < 0 || sum < most) {
                throw bad(text, radix);
            }
            sum *= radix;
            if (sum < least + digit) {
                throw bad(text, radix);
            }
            sum -= digit;
        }
        return negative ? sum : -sum;
    }

    public int intValue() {
        return (int) value;
    }

    public long longValue() {
        return value;
    }

    public int hashCode() {
        return hashCode(value);
    }

    public boolean equals(Object o) {
        return o instanceof Long && ((Long) o).value == value;
    }

    public int compareTo(Long other) {
        return compare(value, other.value);
    }

    public String toString() {
        return toString(value);
    }

    /** Puts the digits of a number before an end, and answers where they begin. */
    static int put(long l, int radix, char[] chars, int end) {
        boolean negative = l < 0;
        long rest = negative ? l : -l;      // the number's negative
        int at = end;
        do {
            int digit = (int) -(rest % radix);
            at--;
            chars[at] = (char) (digit < 10 ? '0' + digit : 'a' + digit - 10);
            rest /= radix;
        } while (rest != 0);
        if (negative) {
            at--;
            chars[at] = '-';
        }
        return at;
    }

    static int width(long l) {
        int n = l < 0 ? 2 : 1;
        long rest = l / 10;
        while (rest != 0) {
            rest /= 10;
            n++;
        }
        return n;
    }

    public static String toString(long l) {
        char[] chars = new char[width(l)];
        put(l, 10, chars, chars.length);
        return String.of(chars);
    }

    /** A radix that there isn't counts as 10. */
    private static int known(int radix) {
        return radix < Character.MIN_RADIX || radix > Character.MAX_RADIX ? 10 : radix;
    }

    public static String toString(long l, int radix) {
        char[] chars = new char[65];
        return String.of(chars, put(l, known(radix), chars, 65), 65);
    }

    static String unsigned(long l, int bits) {
        char[] chars = new char[64];
        int at = 64;
        int mask = (1 << bits) - 1;
        do {
            int digit = (int) l & mask;
            at--;
            chars[at] = (char) (digit < 10 ? '0' + digit : 'a' + digit - 10);
            l >>>= bits;
        } while (l != 0);
        return String.of(chars, at, 64);
    }

    public static String toBinaryString(long l) {
        return unsigned(l, 1);
    }

    public static String toHexString(long l) {
        return unsigned(l, 4);
    }

    public static String toOctalString(long l) {
        return unsigned(l, 3);
    }

    public static int hashCode(long l) {
        return (int) (l ^ l >>> 32);
    }

    public static int compare(long a, long b) {
        return a < b ? -1 : a == b ? 0 : 1;
    }

    public static int signum(long l) {
        return l < 0 ? -1 : l == 0 ? 0 : 1;
    }

    public static long max(long a, long b) {
        return a >= b ? a : b;
    }

    public static long min(long a, long b) {
        return a <= b ? a : b;
    }

    public static long sum(long a, long b) {
        return a + b;
    }

    public static int bitCount(long l) {
        return Integer.bitCount((int) l) + Integer.bitCount((int) (l >>> 32));
    }

    public static int numberOfTrailingZeros(long l) {
        return (int) l != 0 ? Integer.numberOfTrailingZeros((int) l) : 32 + Integer.numberOfTrailingZeros((int) (l >>> 32));
    }

    public static int numberOfLeadingZeros(long l) {
        int high = (int) (l >>> 32);
        return high != 0 ? Integer.numberOfLeadingZeros(high) : 32 + Integer.numberOfLeadingZeros((int) l);
    }

    public static long highestOneBit(long l) {
        return l == 0 ? 0 : MIN_VALUE >>> numberOfLeadingZeros(l);
    }

    public static long lowestOneBit(long l) {
        return l & -l;
    }

    public static long rotateLeft(long l, int by) {
        return l << by | l >>> -by;
    }

    public Long(String text) {
        this(parse(text, 10));
    }

    public static Long valueOf(String text, int radix) {
        return valueOf(parse(text, radix));
    }

    /** A number as in a program: with a sign, and 0x, # or 0 in front of other digits than decimal ones. */
    public static Long decode(String text) {
        if (text.length() == 0) {
            throw new NumberFormatException("Zero length string");
        }
        boolean signed = text.charAt(0) == '-' || text.charAt(0) == '+';
        String sign = text.charAt(0) == '-' ? "-" : "";
        String rest = signed ? text.substring(1) : text;
        int radix = 10;
        if (rest.startsWith("0x") || rest.startsWith("0X")) {
            rest = rest.substring(2);
            radix = 16;
        } else if (rest.startsWith("#")) {
            rest = rest.substring(1);
            radix = 16;
        } else if (rest.startsWith("0") && rest.length() > 1) {
            rest = rest.substring(1);
            radix = 8;
        }
        if (rest.startsWith("-") || rest.startsWith("+")) {
            throw new NumberFormatException("Sign character in wrong position");
        }
        return valueOf(sign.concat(rest), radix);
    }

    public static long rotateRight(long l, int by) {
        return l >>> by | l << -by;
    }

    public static long reverse(long l) {
        return (long) Integer.reverse((int) l) << 32 | Integer.reverse((int) (l >>> 32)) & 0xffffffffL;
    }

    public static long reverseBytes(long l) {
        return (long) Integer.reverseBytes((int) l) << 32 | Integer.reverseBytes((int) (l >>> 32)) & 0xffffffffL;
    }

    // ---- numbers from 0 to 2^64

    public static int compareUnsigned(long a, long b) {
        return compare(a + MIN_VALUE, b + MIN_VALUE);
    }

    public static long divideUnsigned(long a, long b) {
        if (b < 0) {
            return compareUnsigned(a, b) < 0 ? 0 : 1;
        }
        if (a >= 0) {
            return a / b;
        }
        long q = (a >>> 1) / b << 1;
        return compareUnsigned(a - q * b, b) < 0 ? q : q + 1;
    }

    public static long remainderUnsigned(long a, long b) {
        return a - divideUnsigned(a, b) * b;
    }

    public static String toUnsignedString(long l) {
        return toUnsignedString(l, 10);
    }

    public static String toUnsignedString(long l, int radix) {
        if (l >= 0) {
            return toString(l, radix);
        }
        int by = known(radix);
        long front = divideUnsigned(l, by);
        return toString(front, by).concat(toString(l - front * by, by));
    }

    public static long parseUnsignedLong(String text) {
        return parseUnsignedLong(text, 10);
    }

    public static long parseUnsignedLong(String text, int radix) {
        if (text != null && text.startsWith("-")) {
            throw new NumberFormatException("Illegal leading minus sign on unsigned string " + text + ".");
        }
        int n = text == null ? 0 : text.length();
        if (n == 0 || n == 1 && text.charAt(0) == '+') {
            return parse(text, radix);
        }
        long all = 0;
        for (int i = text.charAt(0) == '+' ? 1 : 0; i < n; i++) {
            int digit = Character.digit(text.charAt(i), radix);
            if (digit < 0) {
                throw bad(text, radix);
            }
            long more = all * radix + digit;
            if (compareUnsigned(all, divideUnsigned(-1, radix)) > 0 || compareUnsigned(more, digit) < 0) {
                throw new NumberFormatException("String value " + text + " exceeds range of unsigned long.");
            }
            all = more;
        }
        return all;
    }
}
