package host;

/** What a guest compiles against. It does nothing: the host has its own. */
public final class Io {
    private Io() {
    }

    /** The next byte of the input, or -1 at its end. */
    public static int read() {
        return -1;
    }

    /** Appends the low eight bits to the output. */
    public static void write(int value) {
    }

    /** The byte at a place of the name of an object's class, in internal form, or -1 where there is none, and -1 for an array. */
    public static int className(Object object, int place) {
        return -1;
    }

    /** A new array of so many components, all null, of the type that those of another array have. */
    public static Object[] arrayLike(Object[] array, int count) {
        return null;
    }
}
