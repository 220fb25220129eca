package java.io;

/** Hands on what it gets, and keeps nothing back. */
public class BufferedWriter extends CharWriter {
    private Writer out;

    public BufferedWriter(Writer out) {
        this.out = out;
    }

    public BufferedWriter(Writer out, int size) {
        this.out = out;
    }

    public void write(int c) throws IOException {
        out.write(c);
    }

    public void newLine() throws IOException {
        out.write('\n');
    }

    public void flush() throws IOException {
        out.flush();
    }

    public void close() throws IOException {
        out.close();
        out = new OutputStreamWriter(new Closed());
    }
}
