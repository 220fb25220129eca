package java.io;

public class StringWriter extends CharWriter {
    private final StringBuffer text = new StringBuffer();

    public StringWriter() {
    }

    public StringWriter(int size) {
    }

    public void write(int c) {
        text.append((char) c);
    }

    public void write(String more) {
        text.append(more);
    }

    public StringWriter append(char c) {
        text.append(c);
        return this;
    }

    public StringWriter append(CharSequence more) {
        text.append(more);
        return this;
    }

    public StringWriter append(CharSequence more, int from, int to) {
        return append(String.valueOf(more).subSequence(from, to));
    }

    public StringBuffer getBuffer() {
        return text;
    }

    public void flush() {
    }

    public void close() throws IOException {
    }

    public String toString() {
        return text.toString();
    }
}
