package java.util;

import java.io.IOException;
import java.io.InputStream;
import java.io.InputStreamReader;
import java.io.Reader;
import java.io.StringReader;
import java.util.regex.Matcher;
import java.util.regex.Pattern;

/** Reads tokens and lines, and no more of its input than it needs: but for a delimiter of one's own, and for what is sought, all of it. */
public final class Scanner implements Iterator<String>, java.io.Closeable {
    private static final long NO_NUMBER = Long.MIN_VALUE;

    private final Reader in;
    /** What was read and not yet taken stands from `from` to `to`; places below are counted from `from`. */
    private char[] chars = new char[64];
    private int from;
    private int to;
    private boolean ended;
    private boolean closed;
    private Pattern delimiter;
    private int radix = 10;
    private Matcher last;
    private int start;
    private int end;

    public Scanner(InputStream in) {
        this.in = new InputStreamReader(Objects.requireNonNull(in, "source"));
    }

    public Scanner(InputStream in, String charset) {
        this(in);
    }

    public Scanner(Readable in) {
        this.in = (Reader) Objects.requireNonNull(in, "source");
    }

    public Scanner(String text) {
        this.in = new StringReader(text);
    }

    /** The char at a place, or -1 behind the end of the input. */
    private int at(int place) {
        while (from + place >= to) {
            if (ended) {
                return -1;
            }
            int c;
            try {
                c = in.read();
            } catch (IOException e) {
                c = -1;
            }
            if (c < 0) {
                ended = true;
                return -1;
            }
            if (to == chars.length) {
                make();
            }
            chars[to] = (char) c;
            to++;
        }
        return chars[from + place];
    }

    /** Makes room behind what was read. */
    private void make() {
        char[] larger = 2 * (to - from) > chars.length ? new char[2 * chars.length] : chars;
        System.arraycopy(chars, from, larger, 0, to - from);
        chars = larger;
        to -= from;
        from = 0;
    }

    private static boolean isSpace(int c) {
        return c >= 0 && c <= ' ' && Character.isWhitespace(c);
    }

    /** There is a further token; it stands from `start` to `end`. */
    private boolean find() {
        if (closed) {
            throw new IllegalStateException("Scanner closed");
        }
        if (delimiter != null) {
            return findBehindDelimiter();
        }
        int i = 0;
        int c = at(i);
        while (isSpace(c)) {
            i++;
            c = from + i < to ? chars[from + i] : at(i);
        }
        start = i;
        while (c > ' ' || c >= 0 && !isSpace(c)) {
            i++;
            c = from + i < to ? chars[from + i] : at(i);
        }
        end = i;
        return end > start;
    }

    /** What is left of the input, at most so many chars. */
    private String rest(int most) {
        if (closed) {
            throw new IllegalStateException("Scanner closed");
        }
        int n = 0;
        while (n < most && at(n) >= 0) {
            n++;
        }
        return String.of(chars, from, from + n);
    }

    private boolean findBehindDelimiter() {
        String rest = rest(Integer.MAX_VALUE);
        int n = rest.length();
        Matcher front = delimiter.matcher(rest);
        start = front.lookingAt() ? front.end() : 0;
        if (start == n) {
            return false;
        }
        Matcher next = delimiter.matcher(rest);
        end = next.find(start) && (next.end() > start || next.find()) ? next.start() : n;
        return true;
    }

    private String found() {
        return String.of(chars, from + start, from + end);
    }

    /** The token that is to be taken: what stands before it is taken in any case. */
    private String token() {
        boolean there = find();
        from += start;
        end -= start;
        start = 0;
        if (!there) {
            throw new NoSuchElementException();
        }
        return found();
    }

    private String taken(String token) {
        from += end;
        return token;
    }

    public Scanner useDelimiter(String pattern) {
        delimiter = Pattern.compile(pattern);
        return this;
    }

    public Scanner useDelimiter(Pattern pattern) {
        delimiter = pattern;
        return this;
    }

    public boolean hasNext() {
        return find();
    }

    public String next() {
        return taken(token());
    }

    public boolean hasNext(String pattern) {
        return hasNext(Pattern.compile(pattern));
    }

    public String next(String pattern) {
        return next(Pattern.compile(pattern));
    }

    public boolean hasNext(Pattern pattern) {
        if (!find()) {
            return false;
        }
        last = pattern.matcher(found());
        return last.matches();
    }

    public String next(Pattern pattern) {
        String t = token();
        if (!hasNext(pattern)) {
            throw new InputMismatchException();
        }
        return taken(t);
    }

    public Pattern delimiter() {
        return delimiter == null ? Pattern.compile("\\p{javaWhitespace}+") : delimiter;
    }

    // ---- what is sought, whatever the delimiter

    private String sought(Pattern pattern, String within, boolean here) {
        last = pattern.matcher(within);
        if (here ? last.lookingAt() : last.find()) {
            from += last.end();
            return last.group();
        }
        return null;
    }

    public String findInLine(Pattern pattern) {
        int n = 0;
        rest(0);
        while (at(n) >= 0 && !endsLine(at(n))) {
            n++;
        }
        return n == 0 ? null : sought(pattern, rest(n), false);
    }

    public String findInLine(String pattern) {
        return findInLine(Pattern.compile(pattern));
    }

    public String findWithinHorizon(Pattern pattern, int horizon) {
        if (horizon < 0) {
            throw new IllegalArgumentException("horizon < 0");
        }
        return sought(pattern, rest(horizon == 0 ? Integer.MAX_VALUE : horizon), false);
    }

    public String findWithinHorizon(String pattern, int horizon) {
        return findWithinHorizon(Pattern.compile(pattern), horizon);
    }

    public Scanner skip(Pattern pattern) {
        if (sought(pattern, rest(Integer.MAX_VALUE), true) == null) {
            throw new NoSuchElementException();
        }
        return this;
    }

    public Scanner skip(String pattern) {
        return skip(Pattern.compile(pattern));
    }

    /** Of what was sought, or asked for by a pattern. */
    public java.util.regex.MatchResult match() {
        if (last == null) {
            throw new IllegalStateException("No match result available");
        }
        return last.toMatchResult();
    }

    // ---- numbers

    /** A number's digits and sign alone: groups of three digits may have commas between. Null where it is none. */
    private static String digits(String t, int radix) {
        StringBuilder out = new StringBuilder();
        int n = t.length();
        int i = 0;
        if (n > 0 && (t.charAt(0) == '-' || t.charAt(0) == '+')) {
            out.append(t.charAt(0));
            i++;
        }
        int first = i;
        int comma = t.indexOf(',');
        if (comma >= 0 && (comma == first || comma > first + 3 || (n - comma) % 4 != 0 || t.charAt(first) < '1' || t.charAt(first) > '9')) {
            return null;
        }
        for (; i < n; i++) {
            char c = t.charAt(i);
            if (comma >= 0 && i >= comma && (i - comma) % 4 == 0) {
                if (c != ',') {
                    return null;
                }
            } else if (Character.digit(c, radix) < 0 && !Character.isDigit(c)) {
                return null;
            } else {
                out.append(c);
            }
        }
        return i > first ? out.toString() : null;
    }

    /** The token's number where it is one of at most 18 digits, which takes no memory; else NO_NUMBER. */
    private long simple() {
        int i = from + start;
        int last = from + end;
        boolean negative = chars[i] == '-';
        if (negative || chars[i] == '+') {
            i++;
        }
        if (i == last || last - i > 18) {
            return NO_NUMBER;
        }
        long sum = 0;
        for (; i < last; i++) {
            int digit = chars[i] - '0';
            if (digit < 0 || digit > 9) {
                return NO_NUMBER;
            }
            sum = 10 * sum + digit;
        }
        return negative ? -sum : sum;
    }

    public Scanner useRadix(int radix) {
        if (radix < Character.MIN_RADIX || radix > Character.MAX_RADIX) {
            throw new IllegalArgumentException("radix:" + radix);
        }
        this.radix = radix;
        return this;
    }

    public int radix() {
        return radix;
    }

    private boolean hasNumber(long least, long most, int radix) {
        if (!find()) {
            return false;
        }
        long l = end > start && radix == 10 ? simple() : NO_NUMBER;
        return l != NO_NUMBER ? l >= least && l <= most : isNumber(found(), least, most, radix);
    }

    private static boolean isNumber(String t, long least, long most, int radix) {
        String d = digits(t, radix);
        if (d == null) {
            return false;
        }
        try {
            long l = Long.parseLong(d, radix);
            return l >= least && l <= most;
        } catch (NumberFormatException e) {
            return false;
        }
    }

    private long number(long least, long most, int radix) {
        if (radix == 10 && find() && end > start) {
            long l = simple();
            if (l != NO_NUMBER && l >= least && l <= most) {
                from += end;
                return l;
            }
        }
        String t = token();
        String d = digits(t, radix);
        if (d == null) {
            throw new InputMismatchException();
        }
        if (!isNumber(t, least, most, radix)) {
            boolean isInt = most < Integer.MAX_VALUE && isNumber(t, Integer.MIN_VALUE, Integer.MAX_VALUE, radix);
            throw new InputMismatchException(isInt ? "Value out of range. Value:\"" + d + "\" Radix:" + radix
                : "For input string: \"" + d + "\"" + (radix == 10 ? "" : " under radix " + radix));
        }
        taken(t);
        return Long.parseLong(d, radix);
    }

    public boolean hasNextInt() {
        return hasNextInt(radix);
    }

    public boolean hasNextInt(int radix) {
        return hasNumber(Integer.MIN_VALUE, Integer.MAX_VALUE, radix);
    }

    public boolean hasNextLong() {
        return hasNextLong(radix);
    }

    public boolean hasNextLong(int radix) {
        return hasNumber(Long.MIN_VALUE, Long.MAX_VALUE, radix);
    }

    public boolean hasNextShort() {
        return hasNumber(Short.MIN_VALUE, Short.MAX_VALUE, radix);
    }

    public boolean hasNextByte() {
        return hasNumber(Byte.MIN_VALUE, Byte.MAX_VALUE, radix);
    }

    public int nextInt() {
        return nextInt(radix);
    }

    public int nextInt(int radix) {
        return (int) number(Integer.MIN_VALUE, Integer.MAX_VALUE, radix);
    }

    public long nextLong() {
        return nextLong(radix);
    }

    public long nextLong(int radix) {
        return number(Long.MIN_VALUE, Long.MAX_VALUE, radix);
    }

    public short nextShort() {
        return (short) number(Short.MIN_VALUE, Short.MAX_VALUE, radix);
    }

    public byte nextByte() {
        return (byte) number(Byte.MIN_VALUE, Byte.MAX_VALUE, radix);
    }

    public boolean hasNextBigInteger() {
        return find() && digits(found(), radix) != null;
    }

    public java.math.BigInteger nextBigInteger() {
        String t = token();
        String d = digits(t, radix);
        if (d == null) {
            throw new InputMismatchException();
        }
        taken(t);
        return new java.math.BigInteger(d, radix);
    }

    public boolean hasNextBoolean() {
        return find() && isBoolean(found());
    }

    public boolean nextBoolean() {
        String t = token();
        if (!isBoolean(t)) {
            throw new InputMismatchException();
        }
        return Boolean.parseBoolean(taken(t));
    }

    private static boolean isBoolean(String t) {
        return t.equalsIgnoreCase("true") || t.equalsIgnoreCase("false");
    }

    // ---- lines

    private static boolean endsLine(int c) {
        return c == '\n' || c == '\r' || c == 0x85 || c == 0x2028 || c == 0x2029;
    }

    public boolean hasNextLine() {
        if (closed) {
            throw new IllegalStateException("Scanner closed");
        }
        return at(0) >= 0;
    }

    public String nextLine() {
        if (!hasNextLine()) {
            throw new NoSuchElementException("No line found");
        }
        int n = 0;
        while (at(n) >= 0 && !endsLine(at(n))) {
            n++;
        }
        int c = at(n);
        int behind = c < 0 ? n : c == '\r' && at(n + 1) == '\n' ? n + 2 : n + 1;
        String line = String.of(chars, from, from + n);
        from += behind;
        return line;
    }

    public void close() {
        closed = true;
        try {
            in.close();
        } catch (IOException e) {
            ended = true;
        }
    }

    public Scanner useLocale(Locale locale) {
        return this;
    }
}
