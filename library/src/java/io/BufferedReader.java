package java.io;

public class BufferedReader extends CharReader {
    private static final int NONE = -2;

    private Reader in;
    private char[] line = new char[80];
    private int next = NONE;
    /** What was read behind the mark, null without one, and how much of it is to be read again. */
    private StringBuilder marked;
    private int again;
    private int limit;

    public BufferedReader(Reader in) {
        this.in = in;
    }

    public BufferedReader(Reader in, int size) {
        this.in = in;
    }

    private int peek() throws IOException {
        if (next == NONE) {
            next = again > 0 ? marked.charAt(marked.length() - again) : in.read();
        }
        return next;
    }

    private int readMarked() throws IOException {
        int c = peek();
        if (again > 0) {
            again--;
        } else if (marked.length() >= limit) {
            marked = null;
        } else if (c >= 0) {
            marked.append((char) c);
        }
        next = c < 0 ? c : NONE;
        return c;
    }

    public boolean markSupported() {
        return true;
    }

    public void mark(int most) throws IOException {
        if (most < 0) {
            throw new IllegalArgumentException("Read-ahead limit < 0");
        }
        limit = Math.max(most, 8192);
        marked = new StringBuilder(again == 0 ? "" : marked.substring(marked.length() - again));
    }

    public void reset() throws IOException {
        if (marked == null) {
            throw new IOException("Stream not marked");
        }
        if (next >= 0 && again == 0) {
            marked.append((char) next);
        }
        next = NONE;
        again = marked.length();
    }

    public int read() throws IOException {
        if (marked != null) {
            return readMarked();
        }
        int c = peek();
        if (c >= 0) {
            next = NONE;
        }
        return c;
    }

    /** Behind the end of a stream of bytes nothing is ready, also where more has come since: a reader keeps to the end that it met. */
    public boolean ready() throws IOException {
        return next >= 0 || in.ready() && (next == NONE || !(in instanceof InputStreamReader));
    }

    public void close() throws IOException {
        in.close();
        in = new InputStreamReader(new ClosedInput());
        next = NONE;
        again = 0;
        marked = null;
    }

    public String readLine() throws IOException {
        int c = read();
        if (c < 0) {
            return null;
        }
        int n = 0;
        char[] chars = line;
        while (c >= 0 && c != '\n' && c != '\r') {
            if (n == chars.length) {
                chars = java.util.Arrays.copyOf(chars, 2 * n);
            }
            chars[n] = (char) c;
            n++;
            c = marked == null ? in.read() : readMarked();
        }
        line = chars;
        if (c == '\r' && peek() == '\n') {
            read();
        }
        return new String(chars, 0, n);
    }
}
