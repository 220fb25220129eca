package java.util;

/** Bits by their numbers, 64 in a word; the last word in use is not 0. */
public class BitSet implements Cloneable, java.io.Serializable {
    private long[] words;
    private int used;

    public BitSet() {
        words = new long[1];
    }

    public BitSet(int bits) {
        if (bits < 0) {
            throw new NegativeArraySizeException("nbits < 0: " + bits);
        }
        words = new long[bits + 63 >> 6];
    }

    public static BitSet valueOf(long[] words) {
        BitSet made = new BitSet(64 * words.length);
        System.arraycopy(words, 0, made.words, 0, words.length);
        made.used = words.length;
        made.drop();
        return made;
    }

    public static BitSet valueOf(byte[] bytes) {
        BitSet made = new BitSet(8 * bytes.length);
        for (int i = 0; i < bytes.length; i++) {
            made.words[i >> 3] |= (bytes[i] & 255L) << 8 * (i & 7);
        }
        made.used = made.words.length;
        made.drop();
        return made;
    }

    public long[] toLongArray() {
        return Arrays.copyOf(words, used);
    }

    public byte[] toByteArray() {
        byte[] bytes = new byte[length() + 7 >> 3];
        for (int i = 0; i < bytes.length; i++) {
            bytes[i] = (byte) (words[i >> 3] >>> 8 * (i & 7));
        }
        return bytes;
    }

    private static void check(int bit, String name) {
        if (bit < 0) {
            throw new IndexOutOfBoundsException(name + " < 0: " + bit);
        }
    }

    private static void check(int from, int to) {
        check(from, "fromIndex");
        check(to, "toIndex");
        if (from > to) {
            throw new IndexOutOfBoundsException("fromIndex: " + from + " > toIndex: " + to);
        }
    }

    private void use(int count) {
        if (count > words.length) {
            words = Arrays.copyOf(words, Math.max(2 * words.length, count));
        }
        used = Math.max(used, count);
    }

    private void drop() {
        while (used > 0 && words[used - 1] == 0) {
            used--;
        }
    }

    private long word(int place) {
        return place < used ? words[place] : 0;
    }

    public boolean get(int bit) {
        check(bit, "bitIndex");
        return (word(bit >> 6) >>> bit & 1) != 0;
    }

    public void set(int bit) {
        check(bit, "bitIndex");
        use((bit >> 6) + 1);
        words[bit >> 6] |= 1L << bit;
    }

    public void clear(int bit) {
        check(bit, "bitIndex");
        if (bit >> 6 < used) {
            words[bit >> 6] &= ~(1L << bit);
            drop();
        }
    }

    public void set(int bit, boolean value) {
        if (value) {
            set(bit);
        } else {
            clear(bit);
        }
    }

    public void flip(int bit) {
        set(bit, !get(bit));
    }

    public void set(int from, int to) {
        check(from, to);
        for (int i = from; i < to; i++) {
            set(i);
        }
    }

    public void set(int from, int to, boolean value) {
        if (value) {
            set(from, to);
        } else {
            clear(from, to);
        }
    }

    public void clear(int from, int to) {
        check(from, to);
        for (int i = from; i < to && i < length(); i++) {
            clear(i);
        }
    }

    public void flip(int from, int to) {
        check(from, to);
        for (int i = from; i < to; i++) {
            flip(i);
        }
    }

    public BitSet get(int from, int to) {
        check(from, to);
        BitSet part = new BitSet();
        for (int i = nextSetBit(from); i >= 0 && i < to; i = nextSetBit(i + 1)) {
            part.set(i - from);
        }
        return part;
    }

    public void clear() {
        Arrays.fill(words, 0L);
        used = 0;
    }

    public void and(BitSet other) {
        for (int i = 0; i < used; i++) {
            words[i] &= other.word(i);
        }
        drop();
    }

    public void or(BitSet other) {
        use(other.used);
        for (int i = 0; i < used; i++) {
            words[i] |= other.word(i);
        }
    }

    public void xor(BitSet other) {
        use(other.used);
        for (int i = 0; i < used; i++) {
            words[i] ^= other.word(i);
        }
        drop();
    }

    public void andNot(BitSet other) {
        for (int i = 0; i < used; i++) {
            words[i] &= ~other.word(i);
        }
        drop();
    }

    public boolean intersects(BitSet other) {
        for (int i = 0; i < used; i++) {
            if ((words[i] & other.word(i)) != 0) {
                return true;
            }
        }
        return false;
    }

    public int cardinality() {
        int n = 0;
        for (int i = 0; i < used; i++) {
            n += Long.bitCount(words[i]);
        }
        return n;
    }

    public int length() {
        return used == 0 ? 0 : 64 * used - Long.numberOfLeadingZeros(words[used - 1]);
    }

    public int size() {
        return 64 * words.length;
    }

    public boolean isEmpty() {
        return used == 0;
    }

    public int nextSetBit(int from) {
        check(from, "fromIndex");
        long rest = word(from >> 6) >>> from << from;
        for (int i = from >> 6; i < used; i++) {
            if (rest != 0) {
                return 64 * i + Long.numberOfTrailingZeros(rest);
            }
            rest = word(i + 1);
        }
        return -1;
    }

    public int nextClearBit(int from) {
        check(from, "fromIndex");
        int i = from;
        while (get(i)) {
            i++;
        }
        return i;
    }

    public int previousSetBit(int from) {
        int i = Math.min(from, length() - 1);
        while (i >= 0 && !get(i)) {
            i--;
        }
        return Math.max(i, -1);
    }

    public int previousClearBit(int from) {
        int i = from;
        while (i >= 0 && get(i)) {
            i--;
        }
        return Math.max(i, -1);
    }

    public boolean equals(Object o) {
        if (!(o instanceof BitSet) || ((BitSet) o).used != used) {
            return false;
        }
        for (int i = 0; i < used; i++) {
            if (words[i] != ((BitSet) o).words[i]) {
                return false;
            }
        }
        return true;
    }

    public int hashCode() {
        long h = 1234;
        for (int i = used; i > 0; i--) {
            h ^= words[i - 1] * i;
        }
        return (int) (h >> 32 ^ h);
    }

    public Object clone() {
        BitSet copy = new BitSet(64 * used);
        copy.or(this);
        return copy;
    }

    public String toString() {
        StringBuilder out = new StringBuilder("{");
        for (int i = nextSetBit(0); i >= 0; i = nextSetBit(i + 1)) {
            out.append(out.length() > 1 ? ", " : "").append(i);
        }
        return out.append('}').toString();
    }
}
