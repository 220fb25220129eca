package java.lang;

/** A text that grows. */
public final class StringBuilder implements CharSequence, java.io.Serializable, Appendable {
    private char[] chars;
    private int count;

    public StringBuilder() {
        chars = new char[16];
    }

    public StringBuilder(int capacity) {
        chars = new char[capacity];
    }

    public StringBuilder(String text) {
        chars = new char[text.length() + 16];
        append(text);
    }

    public StringBuilder(CharSequence text) {
        this(text.toString());
    }

    private void reserve(int more) {
        int need = count + more;
        if (need > chars.length) {
            char[] larger = new char[Math.max(need, 2 * chars.length + 2)];
            System.arraycopy(chars, 0, larger, 0, count);
            chars = larger;
        }
    }

    public void ensureCapacity(int capacity) {
        reserve(capacity - count);
    }

    public int capacity() {
        return chars.length;
    }

    public int length() {
        return count;
    }

    private void check(int index) {
        if (index < 0 || index >= count) {
            throw new StringIndexOutOfBoundsException("index " + index + ", length " + count);
        }
    }

    public char charAt(int index) {
        check(index);
        return chars[index];
    }

    public void setCharAt(int index, char c) {
        check(index);
        chars[index] = c;
    }

    public void setLength(int length) {
        if (length < 0) {
            throw new StringIndexOutOfBoundsException("String index out of range: " + length);
        }
        reserve(length - count);
        for (int i = count; i < length; i++) {
            chars[i] = '\0';
        }
        count = length;
    }

    public StringBuilder append(String text) {
        String t = text == null ? "null" : text;
        int n = t.length();
        reserve(n);
        t.getChars(0, n, chars, count);
        count += n;
        return this;
    }

    public StringBuilder append(Object o) {
        return append(String.valueOf(o));
    }

    public StringBuilder append(CharSequence text) {
        return append(String.valueOf(text));
    }

    public StringBuilder append(CharSequence text, int from, int to) {
        if (text == null) {
            return append((CharSequence) "null", from, to);
        }
        check(from, to, text.length());
        reserve(to - from);
        for (int i = from; i < to; i++) {
            chars[count] = text.charAt(i);
            count++;
        }
        return this;
    }

    public StringBuilder append(char[] text) {
        return append(text, 0, text.length);
    }

    private static void check(int from, int to, int length) {
        if (from < 0 || to > length || from > to) {
            throw new IndexOutOfBoundsException("start " + from + ", end " + to + ", length " + length);
        }
    }

    public StringBuilder append(char[] text, int offset, int length) {
        check(offset, offset + length, text.length);
        reserve(length);
        System.arraycopy(text, offset, chars, count, length);
        count += length;
        return this;
    }

    public StringBuilder append(char c) {
        reserve(1);
        chars[count] = c;
        count++;
        return this;
    }

    public StringBuilder append(boolean b) {
        return append(b ? "true" : "false");
    }

    public StringBuilder append(int i) {
        return append((long) i);
    }

    public StringBuilder append(long l) {
        int n = Long.width(l);
        reserve(n);
        count += n;
        Long.put(l, 10, chars, count);
        return this;
    }

    private void open(int at, int n) {
        if (at < 0 || at > count) {
            throw new StringIndexOutOfBoundsException("offset " + at + ", length " + count);
        }
        reserve(n);
        System.arraycopy(chars, at, chars, at + n, count - at);
        count += n;
    }

    public StringBuilder insert(int at, String text) {
        String t = text == null ? "null" : text;
        open(at, t.length());
        t.getChars(0, t.length(), chars, at);
        return this;
    }

    public StringBuilder insert(int at, char c) {
        open(at, 1);
        chars[at] = c;
        return this;
    }

    public StringBuilder insert(int at, int i) {
        return insert(at, Integer.toString(i));
    }

    public StringBuilder insert(int at, long l) {
        return insert(at, Long.toString(l));
    }

    public StringBuilder insert(int at, boolean b) {
        return insert(at, String.valueOf(b));
    }

    public StringBuilder insert(int at, Object o) {
        return insert(at, String.valueOf(o));
    }

    public StringBuilder insert(int at, CharSequence text) {
        return insert(at, String.valueOf(text));
    }

    public StringBuilder delete(int from, int to) {
        int end = Math.min(to, count);
        if (from < 0 || from > end) {
            throw new StringIndexOutOfBoundsException("start " + from + ", end " + end + ", length " + count);
        }
        System.arraycopy(chars, end, chars, from, count - end);
        count -= end - from;
        return this;
    }

    public StringBuilder deleteCharAt(int index) {
        check(index);
        return delete(index, index + 1);
    }

    public StringBuilder replace(int from, int to, String text) {
        delete(from, to);
        return insert(from, text);
    }

    public StringBuilder reverse() {
        for (int i = 0, j = count - 1; i < j; i++, j--) {
            char c = chars[i];
            chars[i] = chars[j];
            chars[j] = c;
        }
        for (int i = 0; i < count - 1; i++) {
            if (Character.isSurrogatePair(chars[i + 1], chars[i])) {
                char low = chars[i];
                chars[i] = chars[i + 1];
                chars[i + 1] = low;
            }
        }
        return this;
    }

    public int indexOf(String part) {
        return toString().indexOf(part);
    }

    public int indexOf(String part, int from) {
        return toString().indexOf(part, from);
    }

    public int lastIndexOf(String part) {
        return toString().lastIndexOf(part);
    }

    public String substring(int from) {
        return substring(from, count);
    }

    public String substring(int from, int to) {
        if (from < 0 || to > count || from > to) {
            throw new StringIndexOutOfBoundsException("start " + from + ", end " + to + ", length " + count);
        }
        return String.of(chars, from, to);
    }

    public CharSequence subSequence(int from, int to) {
        return substring(from, to);
    }

    public void getChars(int from, int to, char[] target, int at) {
        if (from < 0 || to > count || from > to) {
            throw new StringIndexOutOfBoundsException("start " + from + ", end " + to + ", length " + count);
        }
        if (at < 0 || at > target.length - (to - from)) {
            throw new IndexOutOfBoundsException("start " + at + ", end " + (at + to - from) + ", length " + target.length);
        }
        System.arraycopy(chars, from, target, at, to - from);
    }

    public String toString() {
        return String.of(chars, 0, count);
    }

    public StringBuilder appendCodePoint(int c) {
        return append(Character.toChars(c));
    }

    public StringBuilder append(StringBuffer text) {
        return append(String.valueOf(text));
    }

    public StringBuilder insert(int at, char[] text) {
        return insert(at, String.valueOf(text));
    }

    public StringBuilder insert(int at, char[] text, int offset, int length) {
        return insert(at, String.valueOf(text, offset, length));
    }

    public StringBuilder insert(int at, CharSequence text, int from, int to) {
        if (at < 0 || at > count) {
            throw new StringIndexOutOfBoundsException("offset " + at + ", length " + count);
        }
        check(from, to, text.length());
        return insert(at, text.subSequence(from, to));
    }

    public int lastIndexOf(String part, int from) {
        return toString().lastIndexOf(part, from);
    }

    public int codePointAt(int index) {
        check(index);
        return Character.codePointAt(this, index);
    }

    public int codePointBefore(int index) {
        check(index - 1);
        return Character.codePointBefore(this, index);
    }

    public int codePointCount(int from, int to) {
        return Character.codePointCount(this, from, to);
    }

    public void trimToSize() {
    }
}
