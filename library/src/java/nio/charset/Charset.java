package java.nio.charset;

/** UTF-8, and the two whose every byte is a char. */
public abstract class Charset implements Comparable<Charset> {
    private final String name;

    Charset(String name) {
        this.name = name;
    }

    public static Charset defaultCharset() {
        return StandardCharsets.UTF_8;
    }

    public static Charset forName(String name) {
        Charset found = named(name);
        if (found == null) {
            throw new UnsupportedCharsetException(name);
        }
        return found;
    }

    public static boolean isSupported(String name) {
        return named(name) != null;
    }

    private static Charset named(String name) {
        return name.equalsIgnoreCase("UTF-8") || name.equalsIgnoreCase("UTF8") ? StandardCharsets.UTF_8
            : name.equalsIgnoreCase("ISO-8859-1") ? StandardCharsets.ISO_8859_1
            : name.equalsIgnoreCase("US-ASCII") || name.equalsIgnoreCase("ASCII") ? StandardCharsets.US_ASCII
            : null;
    }

    public final String name() {
        return name;
    }

    public String displayName() {
        return name;
    }

    public final int compareTo(Charset other) {
        return name.compareToIgnoreCase(other.name);
    }

    public final boolean equals(Object o) {
        return this == o;
    }

    public final int hashCode() {
        return name.hashCode();
    }

    public final String toString() {
        return name;
    }
}
