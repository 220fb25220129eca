package java.io;

public abstract class Writer implements Closeable, Flushable, Appendable {
    protected Writer() {
    }

    public void write(int c) throws IOException {
        char[] one = {(char) c};
        write(one, 0, 1);
    }

    public void write(char[] chars) throws IOException {
        write(chars, 0, chars.length);
    }

    public abstract void write(char[] chars, int at, int count) throws IOException;

    public void write(String text) throws IOException {
        write(text, 0, text.length());
    }

    public void write(String text, int at, int count) throws IOException {
        char[] chars = new char[count];
        text.getChars(at, at + count, chars, 0);
        write(chars, 0, count);
    }

    public Writer append(char c) throws IOException {
        write(c);
        return this;
    }

    public Writer append(CharSequence text) throws IOException {
        write(String.valueOf(text));
        return this;
    }

    public Writer append(CharSequence text, int from, int to) throws IOException {
        return append(String.valueOf(text).subSequence(from, to));
    }

    public abstract void flush() throws IOException;

    public abstract void close() throws IOException;
}
