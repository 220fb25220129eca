package java.io;

import java.nio.charset.StandardCharsets;
import java.util.Arrays;

public class ByteArrayOutputStream extends OutputStream {
    private byte[] bytes;
    private int count;

    public ByteArrayOutputStream() {
        this(32);
    }

    public ByteArrayOutputStream(int size) {
        if (size < 0) {
            throw new IllegalArgumentException("Negative initial size: " + size);
        }
        bytes = new byte[size];
    }

    public void write(int b) {
        if (count == bytes.length) {
            bytes = Arrays.copyOf(bytes, 2 * count + 2);
        }
        bytes[count] = (byte) b;
        count++;
    }

    public void write(byte[] from, int offset, int length) {
        for (int i = 0; i < length; i++) {
            write(from[offset + i]);
        }
    }

    public void writeTo(OutputStream out) throws IOException {
        out.write(bytes, 0, count);
    }

    public void reset() {
        count = 0;
    }

    public int size() {
        return count;
    }

    public byte[] toByteArray() {
        return Arrays.copyOf(bytes, count);
    }

    public String toString() {
        return Encodings.text(bytes, 0, count, StandardCharsets.UTF_8);
    }

    public String toString(String charset) throws UnsupportedEncodingException {
        return Encodings.text(bytes, 0, count, Encodings.named(charset));
    }
}
