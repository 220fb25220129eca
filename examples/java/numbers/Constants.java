/** A constant of each kind that a field may have, and fields that are not constants. */
class Constants {
    static final int INT = -2147483648;
    static final short SHORT = -32768;
    static final char CHAR = '\uFFFF';
    static final byte BYTE = -128;
    static final boolean TRUE = true;
    static final long LONG = -9223372036854775808L;
    static final String TEXT = "null \0, Umlaut ä, euro €, quote \", clef \uD834\uDD1E";

    /** A constant of an object: its ConstantValue is ignored at run time. */
    final int fixed = 7;
    final long made;

    static int counter;
    static final int FIRST = next(10);
    static final long[] POWERS;

    static {
        POWERS = new long[19];
        POWERS[0] = 1L;
        for (int exponent = 1; exponent < POWERS.length; exponent++) {
            POWERS[exponent] = POWERS[exponent - 1] * 10;
        }
    }

    {
        made = LONG + next(1);
    }

    int fixed() {
        return fixed;
    }

    private static int next(int step) {
        return counter += step;
    }
}
