package java.lang;

import java.io.Encodings;
import java.io.UnsupportedEncodingException;
import java.nio.charset.Charset;
import java.nio.charset.StandardCharsets;

/** A text: an array of chars that nothing changes. The machine makes literals of it, by its one field. */
public final class String implements java.io.Serializable, Comparable<String>, CharSequence {
    private final char[] value;

    public String() {
        value = new char[0];
    }

    public String(String other) {
        value = other.value;
    }

    public String(char[] chars) {
        this(chars, 0, chars.length);
    }

    public String(char[] chars, int offset, int count) {
        if (offset < 0 || count < 0 || offset > chars.length - count) {
            throw new StringIndexOutOfBoundsException("offset " + offset + ", count " + count + ", length " + chars.length);
        }
        char[] copy = new char[count];
        System.arraycopy(chars, offset, copy, 0, count);
        value = copy;
    }

    public String(byte[] bytes) {
        this(bytes, StandardCharsets.UTF_8);
    }

    public String(byte[] bytes, int offset, int count) {
        this(bytes, offset, count, StandardCharsets.UTF_8);
    }

    public String(byte[] bytes, String charset) throws UnsupportedEncodingException {
        this(bytes, Encodings.named(charset));
    }

    public String(byte[] bytes, Charset charset) {
        this(bytes, 0, bytes.length, charset);
    }

    public String(byte[] bytes, int offset, int count, String charset) throws UnsupportedEncodingException {
        this(bytes, offset, count, Encodings.named(charset));
    }

    public String(byte[] bytes, int offset, int count, Charset charset) {
        value = Encodings.text(bytes, offset, count, charset).value;
    }

    public String(StringBuilder builder) {
        this(builder.toString());
    }

    /** Takes the array as it is. */
    private String(char[] chars, boolean own) {
        value = chars;
    }

    /** A text of these chars, which nobody changes any more. */
    public static String of(char[] chars) {
        return new String(chars, true);
    }

    public static String of(char[] chars, int from, int to) {
        char[] copy = new char[to - from];
        System.arraycopy(chars, from, copy, 0, to - from);
        return new String(copy, true);
    }

    public int length() {
        return value.length;
    }

    public char charAt(int index) {
        if (index < 0 || index >= value.length) {
            throw new StringIndexOutOfBoundsException("String index out of range: " + index);
        }
        return value[index];
    }

    public int codePointAt(int index) {
        if (index < 0 || index >= value.length) {
            throw new StringIndexOutOfBoundsException("index " + index + ", length " + value.length);
        }
        return Character.codePointAt(this, index);
    }

    public boolean isEmpty() {
        return value.length == 0;
    }

    public int hashCode() {
        int h = 0;
        for (int i = 0; i < value.length; i++) {
            h = 31 * h + value[i];
        }
        return h;
    }

    public boolean equals(Object o) {
        if (!(o instanceof String)) {
            return false;
        }
        char[] other = ((String) o).value;
        if (other.length != value.length) {
            return false;
        }
        for (int i = 0; i < value.length; i++) {
            if (value[i] != other[i]) {
                return false;
            }
        }
        return true;
    }

    public boolean equalsIgnoreCase(String other) {
        return other != null && other.value.length == value.length && regionMatches(true, 0, other, 0, value.length);
    }

    public boolean contentEquals(CharSequence other) {
        return equals(other.toString());
    }

    public int compareTo(String other) {
        int n = Math.min(value.length, other.value.length);
        for (int i = 0; i < n; i++) {
            if (value[i] != other.value[i]) {
                return value[i] - other.value[i];
            }
        }
        return value.length - other.value.length;
    }

    public int compareToIgnoreCase(String other) {
        int n = Math.min(value.length, other.value.length);
        for (int i = 0; i < n; i++) {
            char a = folded(value[i]);
            char b = folded(other.value[i]);
            if (a != b) {
                return a - b;
            }
        }
        return value.length - other.value.length;
    }

    private static char folded(char c) {
        return Character.toLowerCase(Character.toUpperCase(c));
    }

    public boolean regionMatches(boolean ignoreCase, int from, String other, int otherFrom, int count) {
        if (from < 0 || otherFrom < 0 || from > value.length - count || otherFrom > other.value.length - count) {
            return false;
        }
        for (int i = 0; i < count; i++) {
            char a = value[from + i];
            char b = other.value[otherFrom + i];
            if (a != b && !(ignoreCase && folded(a) == folded(b))) {
                return false;
            }
        }
        return true;
    }

    public boolean regionMatches(int from, String other, int otherFrom, int count) {
        return regionMatches(false, from, other, otherFrom, count);
    }

    public boolean startsWith(String prefix) {
        return regionMatches(false, 0, prefix, 0, prefix.value.length);
    }

    public boolean startsWith(String prefix, int from) {
        return regionMatches(false, from, prefix, 0, prefix.value.length);
    }

    public boolean endsWith(String suffix) {
        return regionMatches(false, value.length - suffix.value.length, suffix, 0, suffix.value.length);
    }

    public boolean contains(CharSequence part) {
        return indexOf(part.toString()) >= 0;
    }

    public int indexOf(int c) {
        return indexOf(c, 0);
    }

    public int indexOf(int c, int from) {
        for (int i = from < 0 ? 0 : from; i < value.length; i++) {
            if (value[i] == c) {
                return i;
            }
        }
        return -1;
    }

    public int indexOf(String part) {
        return indexOf(part, 0);
    }

    public int indexOf(String part, int from) {
        for (int i = from < 0 ? 0 : from; i <= value.length - part.value.length; i++) {
            if (regionMatches(false, i, part, 0, part.value.length)) {
                return i;
            }
        }
        return part.value.length == 0 ? value.length : -1;
    }

    public int lastIndexOf(int c) {
        return lastIndexOf(c, value.length - 1);
    }

    public int lastIndexOf(int c, int from) {
        for (int i = Math.min(from, value.length - 1); i >= 0; i--) {
            if (value[i] == c) {
                return i;
            }
        }
        return -1;
    }

    public int lastIndexOf(String part) {
        return lastIndexOf(part, value.length);
    }

    public int lastIndexOf(String part, int from) {
        for (int i = Math.min(from, value.length - part.value.length); i >= 0; i--) {
            if (regionMatches(false, i, part, 0, part.value.length)) {
                return i;
            }
        }
        return -1;
    }

    public String substring(int from) {
        return substring(from, value.length);
    }

    public String substring(int from, int to) {
        if (from < 0 || to > value.length || from > to) {
            throw new StringIndexOutOfBoundsException("begin " + from + ", end " + to + ", length " + value.length);
        }
        return from == 0 && to == value.length ? this : of(value, from, to);
    }

    public CharSequence subSequence(int from, int to) {
        return substring(from, to);
    }

    public String concat(String other) {
        if (other.value.length == 0) {
            return this;
        }
        char[] all = new char[value.length + other.value.length];
        System.arraycopy(value, 0, all, 0, value.length);
        System.arraycopy(other.value, 0, all, value.length, other.value.length);
        return of(all);
    }

    public String replace(char from, char to) {
        if (indexOf(from) < 0) {
            return this;
        }
        char[] changed = new char[value.length];
        for (int i = 0; i < value.length; i++) {
            changed[i] = value[i] == from ? to : value[i];
        }
        return of(changed);
    }

    public String replace(CharSequence from, CharSequence to) {
        String old = from.toString();
        String by = to.toString();
        StringBuilder out = new StringBuilder();
        int at = 0;
        while (true) {
            int found = indexOf(old, at);
            if (found < 0) {
                break;
            }
            out.append(this, at, found).append(by);
            at = found + old.value.length;
            if (old.value.length == 0) {
                if (found >= value.length) {
                    return out.toString();
                }
                out.append(value[found]);
                at = found + 1;
            }
        }
        return out.append(this, at, value.length).toString();
    }

    public String replaceAll(String pattern, String by) {
        return java.util.regex.Pattern.kept(pattern).matcher(this).replaceAll(by);
    }

    public String replaceFirst(String pattern, String by) {
        return java.util.regex.Pattern.kept(pattern).matcher(this).replaceFirst(by);
    }

    public boolean matches(String pattern) {
        return java.util.regex.Pattern.kept(pattern).matcher(this).matches();
    }

    public String[] split(String pattern) {
        return split(pattern, 0);
    }

    public String[] split(String pattern, int limit) {
        int n = pattern.length();
        if (n == 1 && ".$|()[{^?*+\\".indexOf(pattern.charAt(0)) < 0) {
            return splitAt(pattern.charAt(0), limit);
        }
        if (n == 2 && pattern.charAt(0) == '\\' && !Character.isLetterOrDigit(pattern.charAt(1))) {
            return splitAt(pattern.charAt(1), limit);
        }
        return java.util.regex.Pattern.kept(pattern).split(this, limit);
    }

    /** Split at each of one char, as by a pattern that is this char. */
    private String[] splitAt(char c, int limit) {
        int parts = 1;
        int kept = 1;                       // those up to the last that is not empty
        int from = 0;
        for (int i = indexOf(c); i >= 0 && (limit <= 0 || parts < limit); i = indexOf(c, from)) {
            if (i > from) {
                kept = parts;
            }
            parts++;
            from = i + 1;
        }
        if (parts == 1) {
            return new String[] {this};
        }
        if (from < value.length || limit != 0) {
            kept = parts;
        } else if (kept == 1 && value[0] == c) {
            kept = 0;
        }
        String[] all = new String[kept];
        from = 0;
        for (int k = 0; k < kept; k++) {
            int end = k == parts - 1 ? value.length : indexOf(c, from);
            all[k] = substring(from, end);
            from = end + 1;
        }
        return all;
    }

    public String trim() {
        int from = 0;
        int to = value.length;
        while (from < to && value[from] <= ' ') {
            from++;
        }
        while (from < to && value[to - 1] <= ' ') {
            to--;
        }
        return substring(from, to);
    }

    public String toLowerCase() {
        int i = 0;
        while (i < value.length && Character.toLowerCase(value[i]) == value[i]) {
            i++;
        }
        if (i == value.length) {
            return this;
        }
        char[] changed = toCharArray();
        for (; i < value.length; i++) {
            changed[i] = Character.toLowerCase(value[i]);
        }
        return of(changed);
    }

    public String toUpperCase() {
        char[] changed = new char[value.length];
        for (int i = 0; i < value.length; i++) {
            changed[i] = Character.toUpperCase(value[i]);
        }
        String all = of(changed);
        return all.indexOf('\u00df') < 0 ? all : all.replace("\u00df", "SS");
    }

    public char[] toCharArray() {
        char[] copy = new char[value.length];
        System.arraycopy(value, 0, copy, 0, value.length);
        return copy;
    }

    public void getChars(int from, int to, char[] target, int at) {
        if (from < 0 || to > value.length || from > to) {
            throw new StringIndexOutOfBoundsException("begin " + from + ", end " + to + ", length " + value.length);
        }
        if (at < 0 || at > target.length - (to - from)) {
            throw new StringIndexOutOfBoundsException("offset " + at + ", count " + (to - from) + ", length " + target.length);
        }
        System.arraycopy(value, from, target, at, to - from);
    }

    public byte[] getBytes() {
        return getBytes(StandardCharsets.UTF_8);
    }

    public byte[] getBytes(String charset) throws UnsupportedEncodingException {
        return getBytes(Encodings.named(charset));
    }

    public byte[] getBytes(Charset charset) {
        return Encodings.bytes(this, charset);
    }

    public String intern() {
        return this;
    }

    public String toString() {
        return this;
    }

    // ---- texts of values

    public static String valueOf(Object o) {
        return o == null ? "null" : o.toString();
    }

    public static String valueOf(char[] chars) {
        return of(chars, 0, chars.length);
    }

    public static String valueOf(char[] chars, int offset, int count) {
        return new String(chars, offset, count);
    }

    public static String copyValueOf(char[] chars) {
        return of(chars, 0, chars.length);
    }

    public static String valueOf(boolean b) {
        return b ? "true" : "false";
    }

    public static String valueOf(char c) {
        char[] chars = {c};
        return of(chars);
    }

    public static String valueOf(int i) {
        return Integer.toString(i);
    }

    public static String valueOf(long l) {
        return Long.toString(l);
    }

    public static String join(CharSequence between, CharSequence... parts) {
        java.util.Objects.requireNonNull(between);
        StringBuilder out = new StringBuilder();
        for (int i = 0; i < parts.length; i++) {
            if (i > 0) {
                out.append(between);
            }
            out.append(parts[i]);
        }
        return out.toString();
    }

    public static String join(CharSequence between, Iterable<? extends CharSequence> parts) {
        java.util.Objects.requireNonNull(between);
        StringBuilder out = new StringBuilder();
        boolean first = true;
        for (CharSequence part : parts) {
            if (!first) {
                out.append(between);
            }
            first = false;
            out.append(part);
        }
        return out.toString();
    }

    public static String format(String format, Object... values) {
        return java.util.Formats.format(new StringBuilder(), format, values).toString();
    }

    public String(StringBuffer buffer) {
        this(buffer.toString());
    }

    public String(int[] points, int offset, int count) {
        StringBuilder all = new StringBuilder();
        for (int i = 0; i < count; i++) {
            all.appendCodePoint(points[offset + i]);
        }
        value = all.toString().value;
    }

    public boolean contentEquals(StringBuffer other) {
        return equals(other.toString());
    }

    public static String copyValueOf(char[] chars, int offset, int count) {
        return new String(chars, offset, count);
    }

    public int codePointBefore(int index) {
        if (index < 1 || index > value.length) {
            throw new StringIndexOutOfBoundsException("String index out of range: " + index);
        }
        return Character.codePointBefore(this, index);
    }

    public int codePointCount(int from, int to) {
        return Character.codePointCount(this, from, to);
    }

    // ---- texts depend on no locale

    public static String format(java.util.Locale locale, String format, Object... values) {
        return format(format, values);
    }

    public String toLowerCase(java.util.Locale locale) {
        return toLowerCase();
    }

    public String toUpperCase(java.util.Locale locale) {
        return toUpperCase();
    }
}
