package java.io;

/** A reader of one char at a time. */
abstract class CharReader extends Reader {
    public abstract int read() throws IOException;

    public int read(char[] chars, int at, int count) throws IOException {
        if (at < 0 || count < 0 || at > chars.length - count) {
            throw new IndexOutOfBoundsException();
        }
        int n = 0;
        while (n < count) {
            int c = read();
            if (c < 0) {
                return n == 0 ? -1 : n;
            }
            chars[at + n] = (char) c;
            n++;
        }
        return n;
    }
}
