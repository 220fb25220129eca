package java.io;

/** What was closed: a writer puts it where its stream was. */
final class Closed extends OutputStream {
    public void write(int b) throws IOException {
        flush();
    }

    public void flush() throws IOException {
        throw new IOException("Stream closed");
    }
}
