package java.lang;

/** A char. Letters, digits and cases are those of ASCII and Latin-1. */
public final class Character implements java.io.Serializable, Comparable<Character> {
    public static final char MIN_VALUE = '\0';
    public static final char MAX_VALUE = '\uffff';
    public static final int SIZE = 16;
    public static final int BYTES = 2;
    public static final int MIN_RADIX = 2;
    public static final int MAX_RADIX = 36;
    public static final char MIN_HIGH_SURROGATE = '\ud800';
    public static final char MAX_HIGH_SURROGATE = '\udbff';
    public static final char MIN_LOW_SURROGATE = '\udc00';
    public static final char MAX_LOW_SURROGATE = '\udfff';
    public static final char MIN_SURROGATE = MIN_HIGH_SURROGATE;
    public static final char MAX_SURROGATE = MAX_LOW_SURROGATE;
    public static final int MIN_CODE_POINT = 0;
    public static final int MIN_SUPPLEMENTARY_CODE_POINT = 0x10000;
    public static final int MAX_CODE_POINT = 0x10ffff;

    private static final Character[] SMALL = new Character[128];

    private final char value;

    public Character(char value) {
        this.value = value;
    }

    public static Character valueOf(char c) {
        if (c > 127) {
            return new Character(c);
        }
        if (SMALL[c] == null) {
            SMALL[c] = new Character(c);
        }
        return SMALL[c];
    }

    public char charValue() {
        return value;
    }

    public int hashCode() {
        return value;
    }

    public static int hashCode(char c) {
        return c;
    }

    public boolean equals(Object o) {
        return o instanceof Character && ((Character) o).value == value;
    }

    public int compareTo(Character other) {
        return value - other.value;
    }

    public static int compare(char a, char b) {
        return a - b;
    }

    public String toString() {
        return String.valueOf(value);
    }

    public static String toString(char c) {
        return String.valueOf(c);
    }

    public static boolean isDigit(char c) {
        return c >= '0' && c <= '9';
    }

    public static boolean isDigit(int c) {
        return c >= '0' && c <= '9';
    }

    public static boolean isLetter(char c) {
        return isLetter((int) c);
    }

    public static boolean isLetter(int c) {
        return c >= 'a' && c <= 'z' || c >= 'A' && c <= 'Z'
            || c >= 0xc0 && c <= 0xff && c != 0xd7 && c != 0xf7 || c == 0xaa || c == 0xb5 || c == 0xba;
    }

    public static boolean isLetterOrDigit(char c) {
        return isLetter(c) || isDigit(c);
    }

    public static boolean isLetterOrDigit(int c) {
        return isLetter(c) || isDigit(c);
    }

    public static boolean isAlphabetic(int c) {
        return isLetter(c);
    }

    public static boolean isUpperCase(char c) {
        return c >= 'A' && c <= 'Z' || c >= 0xc0 && c <= 0xde && c != 0xd7;
    }

    public static boolean isLowerCase(char c) {
        return c >= 'a' && c <= 'z' || c >= 0xdf && c <= 0xff && c != 0xf7 || c == 0xaa || c == 0xb5 || c == 0xba;
    }

    public static boolean isWhitespace(char c) {
        return c == ' ' || c >= 9 && c <= 13 || c >= 28 && c <= 31;
    }

    public static boolean isWhitespace(int c) {
        return c == ' ' || c >= 9 && c <= 13 || c >= 28 && c <= 31;
    }

    public static boolean isSpaceChar(char c) {
        return c == ' ' || c == 0xa0;
    }

    public static char toUpperCase(char c) {
        return c == 0xb5 ? 0x39c : c == 0xff ? 0x178 : c >= 'a' && c <= 'z' || c >= 0xe0 && c <= 0xfe && c != 0xf7 ? (char) (c - 32) : c;
    }

    public static int toUpperCase(int c) {
        return c > 0xffff ? c : toUpperCase((char) c);
    }

    public static char toTitleCase(char c) {
        return toUpperCase(c);
    }

    public static int toTitleCase(int c) {
        return toUpperCase(c);
    }

    public static char toLowerCase(char c) {
        return c >= 'A' && c <= 'Z' || c >= 0xc0 && c <= 0xde && c != 0xd7 ? (char) (c + 32) : c;
    }

    public static int toLowerCase(int c) {
        return c > 0xffff ? c : toLowerCase((char) c);
    }

    public static int digit(char c, int radix) {
        int d = c >= '0' && c <= '9' ? c - '0'
            : c >= 'a' && c <= 'z' ? c - 'a' + 10
            : c >= 'A' && c <= 'Z' ? c - 'A' + 10 : -1;
        return d < radix ? d : -1;
    }

    public static int getNumericValue(char c) {
        return getNumericValue((int) c);
    }

    public static char forDigit(int digit, int radix) {
        return digit < 0 || digit >= radix ? '\0' : (char) (digit < 10 ? '0' + digit : 'a' + digit - 10);
    }

    public static boolean isUpperCase(int c) {
        return c >= 'A' && c <= 'Z' || c >= 0xc0 && c <= 0xde && c != 0xd7;
    }

    public static boolean isLowerCase(int c) {
        return c >= 'a' && c <= 'z' || c >= 0xdf && c <= 0xff && c != 0xf7 || c == 0xaa || c == 0xb5 || c == 0xba;
    }

    public static boolean isSpaceChar(int c) {
        return c == ' ' || c == 0xa0;
    }

    public static boolean isISOControl(char c) {
        return isISOControl((int) c);
    }

    public static boolean isISOControl(int c) {
        return c >= 0 && c < 0x20 || c >= 0x7f && c < 0xa0;
    }

    public static boolean isJavaIdentifierStart(char c) {
        return isJavaIdentifierStart((int) c);
    }

    public static boolean isJavaIdentifierStart(int c) {
        return isLetter(c) || c == '_' || c == '$' || c >= 0xa2 && c <= 0xa5;
    }

    public static boolean isJavaIdentifierPart(char c) {
        return isJavaIdentifierPart((int) c);
    }

    public static boolean isJavaIdentifierPart(int c) {
        return isJavaIdentifierStart(c) || isDigit(c) || c >= 0 && c < 9 || c >= 14 && c < 28 || c >= 0x7f && c < 0xa0 || c == 0xad;
    }

    public static int digit(int c, int radix) {
        return c < 0 || c > MAX_VALUE ? -1 : digit((char) c, radix);
    }

    public static int getNumericValue(int c) {
        return c == 0xb2 || c == 0xb3 ? c - 0xb0 : c == 0xb9 ? 1 : c >= 0xbc && c <= 0xbe ? -2 : digit(c, 36);
    }

    public static char reverseBytes(char c) {
        return (char) (c << 8 | c >> 8);
    }

    // ---- code points, of one char or two

    public static boolean isHighSurrogate(char c) {
        return c >= MIN_HIGH_SURROGATE && c <= MAX_HIGH_SURROGATE;
    }

    public static boolean isLowSurrogate(char c) {
        return c >= MIN_LOW_SURROGATE && c <= MAX_LOW_SURROGATE;
    }

    public static boolean isSurrogate(char c) {
        return c >= MIN_SURROGATE && c <= MAX_SURROGATE;
    }

    public static boolean isSurrogatePair(char high, char low) {
        return isHighSurrogate(high) && isLowSurrogate(low);
    }

    public static boolean isValidCodePoint(int c) {
        return c >= 0 && c <= MAX_CODE_POINT;
    }

    public static boolean isBmpCodePoint(int c) {
        return c >>> 16 == 0;
    }

    public static boolean isSupplementaryCodePoint(int c) {
        return c >= MIN_SUPPLEMENTARY_CODE_POINT && c <= MAX_CODE_POINT;
    }

    public static int charCount(int c) {
        return c >= MIN_SUPPLEMENTARY_CODE_POINT ? 2 : 1;
    }

    public static int toCodePoint(char high, char low) {
        return MIN_SUPPLEMENTARY_CODE_POINT + (high - MIN_HIGH_SURROGATE << 10) + (low - MIN_LOW_SURROGATE);
    }

    public static char highSurrogate(int c) {
        return (char) (MIN_HIGH_SURROGATE + (c - MIN_SUPPLEMENTARY_CODE_POINT >> 10));
    }

    public static char lowSurrogate(int c) {
        return (char) (MIN_LOW_SURROGATE + (c & 0x3ff));
    }

    public static char[] toChars(int c) {
        if (!isValidCodePoint(c)) {
            throw new IllegalArgumentException("Not a valid Unicode code point: 0x" + Integer.toHexString(c).toUpperCase());
        }
        if (isBmpCodePoint(c)) {
            char[] one = {(char) c};
            return one;
        }
        char[] two = {highSurrogate(c), lowSurrogate(c)};
        return two;
    }

    public static int codePointAt(CharSequence text, int index) {
        char c = text.charAt(index);
        if (isHighSurrogate(c) && index + 1 < text.length() && isLowSurrogate(text.charAt(index + 1))) {
            return toCodePoint(c, text.charAt(index + 1));
        }
        return c;
    }

    public static int codePointBefore(CharSequence text, int index) {
        char c = text.charAt(index - 1);
        if (isLowSurrogate(c) && index > 1 && isHighSurrogate(text.charAt(index - 2))) {
            return toCodePoint(text.charAt(index - 2), c);
        }
        return c;
    }

    public static int codePointCount(CharSequence text, int from, int to) {
        if (from < 0 || to > text.length() || from > to) {
            throw new IndexOutOfBoundsException();
        }
        int n = 0;
        for (int i = from; i < to; i++) {
            if (!(isLowSurrogate(text.charAt(i)) && i > from && isHighSurrogate(text.charAt(i - 1)))) {
                n++;
            }
        }
        return n;
    }
}
