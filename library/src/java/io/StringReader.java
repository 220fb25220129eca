package java.io;

public class StringReader extends CharReader {
    private String text;
    private int at;
    private int mark;

    public StringReader(String text) {
        this.text = java.util.Objects.requireNonNull(text);
    }

    public int read() throws IOException {
        if (text == null) {
            throw new IOException("Stream closed");
        }
        if (at == text.length()) {
            return -1;
        }
        at++;
        return text.charAt(at - 1);
    }

    public boolean markSupported() {
        return true;
    }

    public void mark(int most) throws IOException {
        mark = at;
    }

    public void reset() throws IOException {
        at = mark;
    }

    public boolean ready() throws IOException {
        if (text == null) {
            throw new IOException("Stream closed");
        }
        return true;
    }

    public void close() {
        text = null;
    }
}
