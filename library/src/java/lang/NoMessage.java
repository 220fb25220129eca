package java.lang;

/** Stands for no message: an object that no one else has, so that no text that is given is taken for it. */
public final class NoMessage {
    public static final String TEXT = new String("");

    private NoMessage() {
    }
}
