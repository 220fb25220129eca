package java.lang;

import java.io.InputStream;
import java.io.PrintStream;

public final class System {
    // No program sets them but by the methods below.
    public static InputStream in = new java.io.HostInput();
    public static PrintStream out = new PrintStream(new java.io.HostOutput());
    public static PrintStream err = new PrintStream(null);

    private System() {
    }

    public static void setIn(InputStream stream) {
        in = stream;
    }

    public static void setOut(PrintStream stream) {
        out = stream;
    }

    public static void setErr(PrintStream stream) {
        err = stream;
    }

    public static void arraycopy(Object from, int at, Object to, int toAt, int count) {
        if (from instanceof char[] && to instanceof char[]) {
            copy((char[]) from, at, (char[]) to, toAt, count);
        } else if (from instanceof Object[] && to instanceof Object[]) {
            copy((Object[]) from, at, (Object[]) to, toAt, count);
        } else if (from instanceof int[] && to instanceof int[]) {
            copy((int[]) from, at, (int[]) to, toAt, count);
        } else if (from instanceof long[] && to instanceof long[]) {
            copy((long[]) from, at, (long[]) to, toAt, count);
        } else if (from instanceof byte[] && to instanceof byte[]) {
            copy((byte[]) from, at, (byte[]) to, toAt, count);
        } else if (from instanceof boolean[] && to instanceof boolean[]) {
            copy((boolean[]) from, at, (boolean[]) to, toAt, count);
        } else if (from instanceof short[] && to instanceof short[]) {
            copy((short[]) from, at, (short[]) to, toAt, count);
        } else if (from == null || to == null) {
            throw new NullPointerException();
        } else {
            throw new ArrayStoreException("arraycopy: not two arrays of one type");
        }
    }

    private static void check(int at, int length, int toAt, int toLength, int count, String of) {
        if (count < 0) {
            throw new ArrayIndexOutOfBoundsException("arraycopy: length " + count + " is negative");
        }
        if (at < 0) {
            throw new ArrayIndexOutOfBoundsException("arraycopy: source index " + at + " out of bounds for " + of + "[" + length + "]");
        }
        if (toAt < 0) {
            throw new ArrayIndexOutOfBoundsException("arraycopy: destination index " + toAt + " out of bounds for " + of + "[" + toLength
                + "]");
        }
        if (at > length - count) {
            throw new ArrayIndexOutOfBoundsException("arraycopy: last source index " + unsigned(at + count)
                + " out of bounds for " + of + "[" + length + "]");
        }
        if (toAt > toLength - count) {
            throw new ArrayIndexOutOfBoundsException("arraycopy: last destination index " + unsigned(toAt + count)
                + " out of bounds for " + of + "[" + toLength + "]");
        }
    }

    private static long unsigned(int i) {
        return i & 0xffffffffL;
    }

    // ---- one for each type: backwards where the places may overlap

    private static void copy(char[] a, int at, char[] b, int to, int count) {
        check(at, a.length, to, b.length, count, "char");
        if (a == b && at < to) {
            for (int i = count - 1; i >= 0; i--) {
                b[to + i] = a[at + i];
            }
        } else {
            for (int i = 0; i < count; i++) {
                b[to + i] = a[at + i];
            }
        }
    }

    private static void copy(Object[] a, int at, Object[] b, int to, int count) {
        check(at, a.length, to, b.length, count, "object array");
        if (a == b && at < to) {
            for (int i = count - 1; i >= 0; i--) {
                b[to + i] = a[at + i];
            }
        } else {
            for (int i = 0; i < count; i++) {
                b[to + i] = a[at + i];
            }
        }
    }

    private static void copy(int[] a, int at, int[] b, int to, int count) {
        check(at, a.length, to, b.length, count, "int");
        if (a == b && at < to) {
            for (int i = count - 1; i >= 0; i--) {
                b[to + i] = a[at + i];
            }
        } else {
            for (int i = 0; i < count; i++) {
                b[to + i] = a[at + i];
            }
        }
    }

    private static void copy(long[] a, int at, long[] b, int to, int count) {
        check(at, a.length, to, b.length, count, "long");
        if (a == b && at < to) {
            for (int i = count - 1; i >= 0; i--) {
                b[to + i] = a[at + i];
            }
        } else {
            for (int i = 0; i < count; i++) {
                b[to + i] = a[at + i];
            }
        }
    }

    private static void copy(byte[] a, int at, byte[] b, int to, int count) {
        check(at, a.length, to, b.length, count, "byte");
        if (a == b && at < to) {
            for (int i = count - 1; i >= 0; i--) {
                b[to + i] = a[at + i];
            }
        } else {
            for (int i = 0; i < count; i++) {
                b[to + i] = a[at + i];
            }
        }
    }

    private static void copy(boolean[] a, int at, boolean[] b, int to, int count) {
        check(at, a.length, to, b.length, count, "boolean");
        if (a == b && at < to) {
            for (int i = count - 1; i >= 0; i--) {
                b[to + i] = a[at + i];
            }
        } else {
            for (int i = 0; i < count; i++) {
                b[to + i] = a[at + i];
            }
        }
    }

    private static void copy(short[] a, int at, short[] b, int to, int count) {
        check(at, a.length, to, b.length, count, "short");
        if (a == b && at < to) {
            for (int i = count - 1; i >= 0; i--) {
                b[to + i] = a[at + i];
            }
        } else {
            for (int i = 0; i < count; i++) {
                b[to + i] = a[at + i];
            }
        }
    }

    /** The machine has no clock. */
    public static long currentTimeMillis() {
        return 0;
    }

    public static long nanoTime() {
        return 0;
    }

    public static int identityHashCode(Object o) {
        return o == null ? 0 : 1;
    }

    public static String lineSeparator() {
        return "\n";
    }

    public static String getProperty(String name) {
        return name.equals("line.separator") ? "\n" : null;
    }

    public static void gc() {
    }

    public static void exit(int status) {
        throw new Exit();
    }

    /** What ends a guest; nothing catches it but what catches any Throwable. */
    static final class Exit extends Error {
    }

    public static String getProperty(String name, String other) {
        String value = getProperty(name);
        return value == null ? other : value;
    }

    public static String getenv(String name) {
        return null;
    }
}
