package java.util;

public class Arrays {
    private Arrays() {
    }

    public static String toString(int[] a) {
        if (a == null) {
            return "null";
        }
        StringBuilder out = new StringBuilder();
        out.append('[');
        for (int i = 0; i < a.length; i++) {
            if (i > 0) {
                out.append(", ");
            }
            out.append(a[i]);
        }
        return out.append(']').toString();
    }

    public static void fill(int[] a, int value) {
        for (int i = 0; i < a.length; i++) {
            a[i] = value;
        }
    }

    public static void fill(int[] a, int from, int to, int value) {
        check(from, to, a.length);
        for (int i = from; i < to; i++) {
            a[i] = value;
        }
    }

    public static boolean equals(int[] a, int[] b) {
        if (a == b) {
            return true;
        }
        if (a == null || b == null || a.length != b.length) {
            return false;
        }
        for (int i = 0; i < a.length; i++) {
            if (a[i] != b[i]) {
                return false;
            }
        }
        return true;
    }

    public static int[] copyOf(int[] a, int length) {
        int[] copy = new int[length];
        int n = Math.min(length, a.length);
        for (int i = 0; i < n; i++) {
            copy[i] = a[i];
        }
        return copy;
    }

    public static int[] copyOfRange(int[] a, int from, int to) {
        checkRange(from, to, a.length);
        int[] copy = new int[to - from];
        int n = Math.min(to, a.length);
        for (int i = from; i < n; i++) {
            copy[i - from] = a[i];
        }
        return copy;
    }

    public static int hashCode(int[] a) {
        if (a == null) {
            return 0;
        }
        int h = 1;
        for (int x : a) {
            h = 31 * h + x;
        }
        return h;
    }

    public static void sort(int[] a) {
        sort(a, 0, a.length);
    }

    /** Heap sort: in place, and n log n at worst. */
    public static void sort(int[] a, int from, int to) {
        check(from, to, a.length);
        int n = to - from;
        for (int i = n / 2 - 1; i >= 0; i--) {
            sink(a, from, i, n);
        }
        for (int i = n - 1; i > 0; i--) {
            int top = a[from];
            a[from] = a[from + i];
            a[from + i] = top;
            sink(a, from, 0, i);
        }
    }

    private static void sink(int[] a, int from, int start, int n) {
        int x = a[from + start];
        int at = start;
        while (2 * at + 1 < n) {
            int child = 2 * at + 1;
            if (child + 1 < n && a[from + child + 1] > a[from + child]) {
                child++;
            }
            if (a[from + child] <= x) {
                break;
            }
            a[from + at] = a[from + child];
            at = child;
        }
        a[from + at] = x;
    }

    public static int binarySearch(int[] a, int key) {
        return binarySearch(a, 0, a.length, key);
    }

    public static int binarySearch(int[] a, int from, int to, int key) {
        check(from, to, a.length);
        int low = from;
        int high = to - 1;
        while (low <= high) {
            int middle = low + high >>> 1;
            if (a[middle] < key) {
                low = middle + 1;
            } else if (a[middle] > key) {
                high = middle - 1;
            } else {
                return middle;
            }
        }
        return -(low + 1);
    }

    public static String toString(long[] a) {
        if (a == null) {
            return "null";
        }
        StringBuilder out = new StringBuilder();
        out.append('[');
        for (int i = 0; i < a.length; i++) {
            if (i > 0) {
                out.append(", ");
            }
            out.append(a[i]);
        }
        return out.append(']').toString();
    }

    public static void fill(long[] a, long value) {
        for (int i = 0; i < a.length; i++) {
            a[i] = value;
        }
    }

    public static void fill(long[] a, int from, int to, long value) {
        check(from, to, a.length);
        for (int i = from; i < to; i++) {
            a[i] = value;
        }
    }

    public static boolean equals(long[] a, long[] b) {
        if (a == b) {
            return true;
        }
        if (a == null || b == null || a.length != b.length) {
            return false;
        }
        for (int i = 0; i < a.length; i++) {
            if (a[i] != b[i]) {
                return false;
            }
        }
        return true;
    }

    public static long[] copyOf(long[] a, int length) {
        long[] copy = new long[length];
        int n = Math.min(length, a.length);
        for (int i = 0; i < n; i++) {
            copy[i] = a[i];
        }
        return copy;
    }

    public static long[] copyOfRange(long[] a, int from, int to) {
        checkRange(from, to, a.length);
        long[] copy = new long[to - from];
        int n = Math.min(to, a.length);
        for (int i = from; i < n; i++) {
            copy[i - from] = a[i];
        }
        return copy;
    }

    public static int hashCode(long[] a) {
        if (a == null) {
            return 0;
        }
        int h = 1;
        for (long x : a) {
            h = 31 * h + Long.hashCode(x);
        }
        return h;
    }

    public static void sort(long[] a) {
        sort(a, 0, a.length);
    }

    /** Heap sort: in place, and n log n at worst. */
    public static void sort(long[] a, int from, int to) {
        check(from, to, a.length);
        int n = to - from;
        for (int i = n / 2 - 1; i >= 0; i--) {
            sink(a, from, i, n);
        }
        for (int i = n - 1; i > 0; i--) {
            long top = a[from];
            a[from] = a[from + i];
            a[from + i] = top;
            sink(a, from, 0, i);
        }
    }

    private static void sink(long[] a, int from, int start, int n) {
        long x = a[from + start];
        int at = start;
        while (2 * at + 1 < n) {
            int child = 2 * at + 1;
            if (child + 1 < n && a[from + child + 1] > a[from + child]) {
                child++;
            }
            if (a[from + child] <= x) {
                break;
            }
            a[from + at] = a[from + child];
            at = child;
        }
        a[from + at] = x;
    }

    public static int binarySearch(long[] a, long key) {
        return binarySearch(a, 0, a.length, key);
    }

    public static int binarySearch(long[] a, int from, int to, long key) {
        check(from, to, a.length);
        int low = from;
        int high = to - 1;
        while (low <= high) {
            int middle = low + high >>> 1;
            if (a[middle] < key) {
                low = middle + 1;
            } else if (a[middle] > key) {
                high = middle - 1;
            } else {
                return middle;
            }
        }
        return -(low + 1);
    }

    public static String toString(char[] a) {
        if (a == null) {
            return "null";
        }
        StringBuilder out = new StringBuilder();
        out.append('[');
        for (int i = 0; i < a.length; i++) {
            if (i > 0) {
                out.append(", ");
            }
            out.append(a[i]);
        }
        return out.append(']').toString();
    }

    public static void fill(char[] a, char value) {
        for (int i = 0; i < a.length; i++) {
            a[i] = value;
        }
    }

    public static void fill(char[] a, int from, int to, char value) {
        check(from, to, a.length);
        for (int i = from; i < to; i++) {
            a[i] = value;
        }
    }

    public static boolean equals(char[] a, char[] b) {
        if (a == b) {
            return true;
        }
        if (a == null || b == null || a.length != b.length) {
            return false;
        }
        for (int i = 0; i < a.length; i++) {
            if (a[i] != b[i]) {
                return false;
            }
        }
        return true;
    }

    public static char[] copyOf(char[] a, int length) {
        char[] copy = new char[length];
        int n = Math.min(length, a.length);
        for (int i = 0; i < n; i++) {
            copy[i] = a[i];
        }
        return copy;
    }

    public static char[] copyOfRange(char[] a, int from, int to) {
        checkRange(from, to, a.length);
        char[] copy = new char[to - from];
        int n = Math.min(to, a.length);
        for (int i = from; i < n; i++) {
            copy[i - from] = a[i];
        }
        return copy;
    }

    public static int hashCode(char[] a) {
        if (a == null) {
            return 0;
        }
        int h = 1;
        for (char x : a) {
            h = 31 * h + x;
        }
        return h;
    }

    public static void sort(char[] a) {
        sort(a, 0, a.length);
    }

    /** Heap sort: in place, and n log n at worst. */
    public static void sort(char[] a, int from, int to) {
        check(from, to, a.length);
        int n = to - from;
        for (int i = n / 2 - 1; i >= 0; i--) {
            sink(a, from, i, n);
        }
        for (int i = n - 1; i > 0; i--) {
            char top = a[from];
            a[from] = a[from + i];
            a[from + i] = top;
            sink(a, from, 0, i);
        }
    }

    private static void sink(char[] a, int from, int start, int n) {
        char x = a[from + start];
        int at = start;
        while (2 * at + 1 < n) {
            int child = 2 * at + 1;
            if (child + 1 < n && a[from + child + 1] > a[from + child]) {
                child++;
            }
            if (a[from + child] <= x) {
                break;
            }
            a[from + at] = a[from + child];
            at = child;
        }
        a[from + at] = x;
    }

    public static int binarySearch(char[] a, char key) {
        return binarySearch(a, 0, a.length, key);
    }

    public static int binarySearch(char[] a, int from, int to, char key) {
        check(from, to, a.length);
        int low = from;
        int high = to - 1;
        while (low <= high) {
            int middle = low + high >>> 1;
            if (a[middle] < key) {
                low = middle + 1;
            } else if (a[middle] > key) {
                high = middle - 1;
            } else {
                return middle;
            }
        }
        return -(low + 1);
    }

    public static String toString(byte[] a) {
        if (a == null) {
            return "null";
        }
        StringBuilder out = new StringBuilder();
        out.append('[');
        for (int i = 0; i < a.length; i++) {
            if (i > 0) {
                out.append(", ");
            }
            out.append(a[i]);
        }
        return out.append(']').toString();
    }

    public static void fill(byte[] a, byte value) {
        for (int i = 0; i < a.length; i++) {
            a[i] = value;
        }
    }

    public static void fill(byte[] a, int from, int to, byte value) {
        check(from, to, a.length);
        for (int i = from; i < to; i++) {
            a[i] = value;
        }
    }

    public static boolean equals(byte[] a, byte[] b) {
        if (a == b) {
            return true;
        }
        if (a == null || b == null || a.length != b.length) {
            return false;
        }
        for (int i = 0; i < a.length; i++) {
            if (a[i] != b[i]) {
                return false;
            }
        }
        return true;
    }

    public static byte[] copyOf(byte[] a, int length) {
        byte[] copy = new byte[length];
        int n = Math.min(length, a.length);
        for (int i = 0; i < n; i++) {
            copy[i] = a[i];
        }
        return copy;
    }

    public static byte[] copyOfRange(byte[] a, int from, int to) {
        checkRange(from, to, a.length);
        byte[] copy = new byte[to - from];
        int n = Math.min(to, a.length);
        for (int i = from; i < n; i++) {
            copy[i - from] = a[i];
        }
        return copy;
    }

    public static int hashCode(byte[] a) {
        if (a == null) {
            return 0;
        }
        int h = 1;
        for (byte x : a) {
            h = 31 * h + x;
        }
        return h;
    }

    public static void sort(byte[] a) {
        sort(a, 0, a.length);
    }

    /** Heap sort: in place, and n log n at worst. */
    public static void sort(byte[] a, int from, int to) {
        check(from, to, a.length);
        int n = to - from;
        for (int i = n / 2 - 1; i >= 0; i--) {
            sink(a, from, i, n);
        }
        for (int i = n - 1; i > 0; i--) {
            byte top = a[from];
            a[from] = a[from + i];
            a[from + i] = top;
            sink(a, from, 0, i);
        }
    }

    private static void sink(byte[] a, int from, int start, int n) {
        byte x = a[from + start];
        int at = start;
        while (2 * at + 1 < n) {
            int child = 2 * at + 1;
            if (child + 1 < n && a[from + child + 1] > a[from + child]) {
                child++;
            }
            if (a[from + child] <= x) {
                break;
            }
            a[from + at] = a[from + child];
            at = child;
        }
        a[from + at] = x;
    }

    public static int binarySearch(byte[] a, byte key) {
        return binarySearch(a, 0, a.length, key);
    }

    public static int binarySearch(byte[] a, int from, int to, byte key) {
        check(from, to, a.length);
        int low = from;
        int high = to - 1;
        while (low <= high) {
            int middle = low + high >>> 1;
            if (a[middle] < key) {
                low = middle + 1;
            } else if (a[middle] > key) {
                high = middle - 1;
            } else {
                return middle;
            }
        }
        return -(low + 1);
    }

    public static String toString(short[] a) {
        if (a == null) {
            return "null";
        }
        StringBuilder out = new StringBuilder();
        out.append('[');
        for (int i = 0; i < a.length; i++) {
            if (i > 0) {
                out.append(", ");
            }
            out.append(a[i]);
        }
        return out.append(']').toString();
    }

    public static void fill(short[] a, short value) {
        for (int i = 0; i < a.length; i++) {
            a[i] = value;
        }
    }

    public static void fill(short[] a, int from, int to, short value) {
        check(from, to, a.length);
        for (int i = from; i < to; i++) {
            a[i] = value;
        }
    }

    public static boolean equals(short[] a, short[] b) {
        if (a == b) {
            return true;
        }
        if (a == null || b == null || a.length != b.length) {
            return false;
        }
        for (int i = 0; i < a.length; i++) {
            if (a[i] != b[i]) {
                return false;
            }
        }
        return true;
    }

    public static short[] copyOf(short[] a, int length) {
        short[] copy = new short[length];
        int n = Math.min(length, a.length);
        for (int i = 0; i < n; i++) {
            copy[i] = a[i];
        }
        return copy;
    }

    public static short[] copyOfRange(short[] a, int from, int to) {
        checkRange(from, to, a.length);
        short[] copy = new short[to - from];
        int n = Math.min(to, a.length);
        for (int i = from; i < n; i++) {
            copy[i - from] = a[i];
        }
        return copy;
    }

    public static int hashCode(short[] a) {
        if (a == null) {
            return 0;
        }
        int h = 1;
        for (short x : a) {
            h = 31 * h + x;
        }
        return h;
    }

    public static void sort(short[] a) {
        sort(a, 0, a.length);
    }

    /** Heap sort: in place, and n log n at worst. */
    public static void sort(short[] a, int from, int to) {
        check(from, to, a.length);
        int n = to - from;
        for (int i = n / 2 - 1; i >= 0; i--) {
            sink(a, from, i, n);
        }
        for (int i = n - 1; i > 0; i--) {
            short top = a[from];
            a[from] = a[from + i];
            a[from + i] = top;
            sink(a, from, 0, i);
        }
    }

    private static void sink(short[] a, int from, int start, int n) {
        short x = a[from + start];
        int at = start;
        while (2 * at + 1 < n) {
            int child = 2 * at + 1;
            if (child + 1 < n && a[from + child + 1] > a[from + child]) {
                child++;
            }
            if (a[from + child] <= x) {
                break;
            }
            a[from + at] = a[from + child];
            at = child;
        }
        a[from + at] = x;
    }

    public static int binarySearch(short[] a, short key) {
        return binarySearch(a, 0, a.length, key);
    }

    public static int binarySearch(short[] a, int from, int to, short key) {
        check(from, to, a.length);
        int low = from;
        int high = to - 1;
        while (low <= high) {
            int middle = low + high >>> 1;
            if (a[middle] < key) {
                low = middle + 1;
            } else if (a[middle] > key) {
                high = middle - 1;
            } else {
                return middle;
            }
        }
        return -(low + 1);
    }

    public static String toString(boolean[] a) {
        if (a == null) {
            return "null";
        }
        StringBuilder out = new StringBuilder();
        out.append('[');
        for (int i = 0; i < a.length; i++) {
            if (i > 0) {
                out.append(", ");
            }
            out.append(a[i]);
        }
        return out.append(']').toString();
    }

    public static void fill(boolean[] a, boolean value) {
        for (int i = 0; i < a.length; i++) {
            a[i] = value;
        }
    }

    public static void fill(boolean[] a, int from, int to, boolean value) {
        check(from, to, a.length);
        for (int i = from; i < to; i++) {
            a[i] = value;
        }
    }

    public static boolean equals(boolean[] a, boolean[] b) {
        if (a == b) {
            return true;
        }
        if (a == null || b == null || a.length != b.length) {
            return false;
        }
        for (int i = 0; i < a.length; i++) {
            if (a[i] != b[i]) {
                return false;
            }
        }
        return true;
    }

    public static boolean[] copyOf(boolean[] a, int length) {
        boolean[] copy = new boolean[length];
        int n = Math.min(length, a.length);
        for (int i = 0; i < n; i++) {
            copy[i] = a[i];
        }
        return copy;
    }

    public static boolean[] copyOfRange(boolean[] a, int from, int to) {
        checkRange(from, to, a.length);
        boolean[] copy = new boolean[to - from];
        int n = Math.min(to, a.length);
        for (int i = from; i < n; i++) {
            copy[i - from] = a[i];
        }
        return copy;
    }

    public static int hashCode(boolean[] a) {
        if (a == null) {
            return 0;
        }
        int h = 1;
        for (boolean x : a) {
            h = 31 * h + (x ? 1231 : 1237);
        }
        return h;
    }

    private static void checkRange(int from, int to, int length) {
        if (from > to) {
            throw new IllegalArgumentException(from + " > " + to);
        }
        if (from < 0 || from > length) {
            throw new ArrayIndexOutOfBoundsException(from < 0 ? "Array index out of range: " + from
                : "arraycopy: length " + (length - from) + " is negative");
        }
    }

    private static void check(int from, int to, int length) {
        if (from > to) {
            throw new IllegalArgumentException("fromIndex(" + from + ") > toIndex(" + to + ")");
        }
        if (from < 0) {
            throw new ArrayIndexOutOfBoundsException("Array index out of range: " + from);
        }
        if (to > length) {
            throw new ArrayIndexOutOfBoundsException("Array index out of range: " + to);
        }
    }

    // ---- objects

    public static String toString(Object[] a) {
        return a == null ? "null" : new Items<Object>(a).toString();
    }

    public static String deepToString(Object[] a) {
        if (a == null) {
            return "null";
        }
        StringBuilder out = new StringBuilder();
        out.append('[');
        for (int i = 0; i < a.length; i++) {
            if (i > 0) {
                out.append(", ");
            }
            Object o = a[i];
            if (o instanceof Object[]) {
                out.append(deepToString((Object[]) o));
            } else if (o instanceof int[]) {
                out.append(toString((int[]) o));
            } else if (o instanceof long[]) {
                out.append(toString((long[]) o));
            } else if (o instanceof char[]) {
                out.append(toString((char[]) o));
            } else if (o instanceof boolean[]) {
                out.append(toString((boolean[]) o));
            } else if (o instanceof byte[]) {
                out.append(toString((byte[]) o));
            } else {
                out.append(o);
            }
        }
        return out.append(']').toString();
    }

    public static void fill(Object[] a, Object value) {
        for (int i = 0; i < a.length; i++) {
            a[i] = value;
        }
    }

    public static void fill(Object[] a, int from, int to, Object value) {
        check(from, to, a.length);
        for (int i = from; i < to; i++) {
            a[i] = value;
        }
    }

    public static boolean equals(Object[] a, Object[] b) {
        if (a == b) {
            return true;
        }
        if (a == null || b == null || a.length != b.length) {
            return false;
        }
        for (int i = 0; i < a.length; i++) {
            if (!Objects.equals(a[i], b[i])) {
                return false;
            }
        }
        return true;
    }

    public static boolean deepEquals(Object[] a, Object[] b) {
        if (a == b) {
            return true;
        }
        if (a == null || b == null || a.length != b.length) {
            return false;
        }
        for (int i = 0; i < a.length; i++) {
            if (!Objects.deepEquals(a[i], b[i])) {
                return false;
            }
        }
        return true;
    }

    /** Of two that are no arrays of references. */
    static boolean equalsInside(Object a, Object b) {
        return a instanceof int[] && b instanceof int[] ? equals((int[]) a, (int[]) b)
            : a instanceof long[] && b instanceof long[] ? equals((long[]) a, (long[]) b)
            : a instanceof char[] && b instanceof char[] ? equals((char[]) a, (char[]) b)
            : a instanceof byte[] && b instanceof byte[] ? equals((byte[]) a, (byte[]) b)
            : a instanceof short[] && b instanceof short[] ? equals((short[]) a, (short[]) b)
            : a instanceof boolean[] && b instanceof boolean[] ? equals((boolean[]) a, (boolean[]) b)
            : a.equals(b);
    }

    public static int deepHashCode(Object[] a) {
        if (a == null) {
            return 0;
        }
        int h = 1;
        for (Object o : a) {
            h = 31 * h + hashInside(o);
        }
        return h;
    }

    private static int hashInside(Object o) {
        return o == null ? 0
            : o instanceof Object[] ? deepHashCode((Object[]) o)
            : o instanceof int[] ? hashCode((int[]) o)
            : o instanceof long[] ? hashCode((long[]) o)
            : o instanceof char[] ? hashCode((char[]) o)
            : o instanceof byte[] ? hashCode((byte[]) o)
            : o instanceof short[] ? hashCode((short[]) o)
            : o instanceof boolean[] ? hashCode((boolean[]) o)
            : o.hashCode();
    }

    public static int hashCode(Object[] a) {
        if (a == null) {
            return 0;
        }
        int h = 1;
        for (Object o : a) {
            h = 31 * h + (o == null ? 0 : o.hashCode());
        }
        return h;
    }

    public static <T> T[] copyOf(T[] a, int length) {
        Object[] copy = ObjectMembers.arrayLike(a, length);
        System.arraycopy(a, 0, copy, 0, Math.min(length, a.length));
        return (T[]) copy;
    }

    public static <T> T[] copyOfRange(T[] a, int from, int to) {
        checkRange(from, to, a.length);
        Object[] copy = ObjectMembers.arrayLike(a, to - from);
        System.arraycopy(a, from, copy, 0, Math.min(to, a.length) - from);
        return (T[]) copy;
    }

    public static void sort(Object[] a) {
        sort(a, 0, a.length, null);
    }

    public static void sort(Object[] a, int from, int to) {
        sort(a, from, to, null);
    }

    public static <T> void sort(T[] a, Comparator<? super T> order) {
        sort(a, 0, a.length, order);
    }

    public static <T> void sort(T[] a, int from, int to, Comparator<? super T> order) {
        check(from, to, a.length);
        RunSort.sort(a, from, to, order == null
            ? (Comparator<Object>) (Comparator<?>) new Comparators.Natural<Integer>() : (Comparator<Object>) order);
    }

    public static int binarySearch(Object[] a, Object key) {
        return Collections.binarySearch(new Items<Object>(a), key, null);
    }

    public static <T> int binarySearch(T[] a, T key, Comparator<? super T> order) {
        return Collections.binarySearch(new Items<T>(a), key, order);
    }

    public static int binarySearch(Object[] a, int from, int to, Object key) {
        return binarySearch(a, from, to, key, null);
    }

    public static <T> int binarySearch(T[] a, int from, int to, T key, Comparator<? super T> order) {
        check(from, to, a.length);
        int at = Collections.binarySearch(new Items<T>(a).subList(from, to), key, order);
        return at < 0 ? at - from : at + from;
    }

    public static void setAll(int[] a, java.util.function.IntUnaryOperator of) {
        Objects.requireNonNull(of);
        for (int i = 0; i < a.length; i++) {
            a[i] = of.applyAsInt(i);
        }
    }

    public static <T> void setAll(T[] a, java.util.function.IntFunction<? extends T> of) {
        Objects.requireNonNull(of);
        for (int i = 0; i < a.length; i++) {
            a[i] = of.apply(i);
        }
    }

    public static void setAll(long[] a, java.util.function.IntToLongFunction of) {
        Objects.requireNonNull(of);
        for (int i = 0; i < a.length; i++) {
            a[i] = of.applyAsLong(i);
        }
    }

    public static <T> List<T> asList(T... items) {
        return new Items<T>(items);
    }

    private static final class Items<T> extends AbstractList<T> implements RandomAccess {
        private final T[] items;

        Items(T[] items) {
            this.items = Objects.requireNonNull(items);
        }

        public int size() {
            return items.length;
        }

        public T get(int index) {
            return items[index];
        }

        public boolean remove(Object o) {
            if (contains(o)) {
                throw new UnsupportedOperationException("remove");
            }
            return false;
        }

        public T set(int index, T item) {
            T old = items[index];
            items[index] = item;
            return old;
        }

        public void sort(Comparator<? super T> order) {
            Arrays.sort(items, order);
        }
    }
}
