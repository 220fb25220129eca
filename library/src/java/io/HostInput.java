package java.io;

/** The guest's input. Whether a byte waits is found by taking it, so that one is kept here. Public, since java.lang.System makes it. */
public final class HostInput extends InputStream {
    static final int NONE = -1;

    private static final int CLOSED = -2;

    /** The byte that was found to wait, or NONE, or CLOSED for good. */
    static int waiting = NONE;

    public int read() throws IOException {
        int b = waiting;
        if (b == NONE) {
            return host.Io.read();
        }
        if (b == CLOSED) {
            throw new IOException("Stream closed");
        }
        waiting = NONE;
        return b;
    }

    public int available() throws IOException {
        waiting = read();
        return waiting == NONE ? 0 : 1;
    }

    public void close() {
        waiting = CLOSED;
    }
}
