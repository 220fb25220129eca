package java.lang;

import host.Io;
import java.util.Arrays;

/** What java.lang.Object does. Public, since java.lang.Object is in another run-time package. */
public final class ObjectMembers {
    private ObjectMembers() {
    }

    /** The name of an object's class; of an array's that of the nearest class above it that is known here. */
    public static String className(Object o) {
        int[] bytes = nameBytes(o);
        return bytes.length == 0 ? arrayName(o) : nameOf(bytes);
    }

    /** The bytes of the name of an object's class, in internal form; none of an array's. */
    static int[] nameBytes(Object o) {
        int length = 0;
        while (Io.className(o, length) >= 0) {
            length++;
        }
        int[] bytes = new int[length];
        for (int i = 0; i < length; i++) {
            bytes[i] = Io.className(o, i);
        }
        return bytes;
    }

    /** A name as it is spelled by such bytes, which are in modified UTF-8. */
    static String nameOf(int[] bytes) {
        char[] letters = new char[bytes.length];
        int length = 0;
        for (int i = 0; i < bytes.length; i++) {
            int first = bytes[i];
            if (first < 0x80) {
                letters[length] = first == '/' ? '.' : (char) first;
            } else if (first < 0xE0) {
                letters[length] = (char) ((first & 31) << 6 | bytes[++i] & 63);
            } else {
                letters[length] = (char) ((first & 15) << 12 | (bytes[++i] & 63) << 6 | bytes[++i] & 63);
            }
            length++;
        }
        return new String(letters, 0, length);
    }

    static String arrayName(Object o) {
        return o instanceof int[] ? "[I"
            : o instanceof long[] ? "[J"
            : o instanceof char[] ? "[C"
            : o instanceof byte[] ? "[B"
            : o instanceof short[] ? "[S"
            : o instanceof boolean[] ? "[Z"
            : o instanceof String[] ? "[Ljava.lang.String;"
            : "[Ljava.lang.Object;";
    }

    public static String toString(Object o) {
        return className(o).concat("@").concat(Integer.toHexString(o.hashCode()));
    }

    /** A copy of an array; of another object there is none. */
    public static Object clone(Object o) throws CloneNotSupportedException {
        if (o instanceof Object[]) {
            Object[] from = (Object[]) o;
            Object[] to = arrayLike(from, from.length);
            System.arraycopy(from, 0, to, 0, from.length);
            return to;
        }
        if (o instanceof int[]) {
            return Arrays.copyOf((int[]) o, ((int[]) o).length);
        }
        if (o instanceof long[]) {
            return Arrays.copyOf((long[]) o, ((long[]) o).length);
        }
        if (o instanceof char[]) {
            return Arrays.copyOf((char[]) o, ((char[]) o).length);
        }
        if (o instanceof byte[]) {
            return Arrays.copyOf((byte[]) o, ((byte[]) o).length);
        }
        if (o instanceof boolean[]) {
            return Arrays.copyOf((boolean[]) o, ((boolean[]) o).length);
        }
        if (o instanceof short[]) {
            return Arrays.copyOf((short[]) o, ((short[]) o).length);
        }
        throw new CloneNotSupportedException(className(o));
    }

    /** A new array of the class of another. */
    public static Object[] arrayLike(Object[] like, int count) {
        return Io.arrayLike(like, count);
    }
}
