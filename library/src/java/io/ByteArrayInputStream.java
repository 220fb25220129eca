package java.io;

public class ByteArrayInputStream extends InputStream {
    private final byte[] bytes;
    private final int end;
    private int at;

    public ByteArrayInputStream(byte[] bytes) {
        this(bytes, 0, bytes.length);
    }

    public ByteArrayInputStream(byte[] bytes, int offset, int count) {
        this.bytes = bytes;
        this.at = offset;
        this.end = Math.min(offset + count, bytes.length);
    }

    public int read() {
        if (at >= end) {
            return -1;
        }
        at++;
        return bytes[at - 1] & 0xff;
    }

    public int read(byte[] to, int offset, int count) {
        int n = 0;
        while (n < count && at < end) {
            to[offset + n] = bytes[at];
            at++;
            n++;
        }
        return n == 0 && count > 0 ? -1 : n;
    }

    public int available() {
        return end - at;
    }
}
