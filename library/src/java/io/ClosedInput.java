package java.io;

/** What was closed: a reader puts it where its stream was. */
final class ClosedInput extends InputStream {
    public int read() throws IOException {
        throw new IOException("Stream closed");
    }

    public int available() throws IOException {
        return read();
    }
}
