package java.nio.charset;

public final class StandardCharsets {
    public static final Charset US_ASCII = new Known("US-ASCII");
    public static final Charset ISO_8859_1 = new Known("ISO-8859-1");
    public static final Charset UTF_8 = new Known("UTF-8");

    private StandardCharsets() {
    }

    private static final class Known extends Charset {
        Known(String name) {
            super(name);
        }
    }
}
