package java.io;

import java.nio.charset.Charset;
import java.nio.charset.StandardCharsets;

/** Chars as bytes, of UTF-8 or of one byte each: `?` for half of a pair, and for what the charset lacks. */
public class OutputStreamWriter extends CharWriter {
    private OutputStream out;
    private final int greatest;
    private int high;

    public OutputStreamWriter(OutputStream out) {
        this(out, StandardCharsets.UTF_8);
    }

    public OutputStreamWriter(OutputStream out, String charset) throws UnsupportedEncodingException {
        this(out, Encodings.named(charset));
    }

    public OutputStreamWriter(OutputStream out, Charset charset) {
        this.out = java.util.Objects.requireNonNull(out);
        this.greatest = charset == StandardCharsets.UTF_8 ? 0xffff : charset == StandardCharsets.US_ASCII ? 0x7f : 0xff;
    }

    /** The first half of a pair was written, and not yet the second. */
    boolean isWithin() {
        return high != 0;
    }

    public void write(int unit) throws IOException {
        int c = unit & 0xffff;
        boolean isLow = c >= 0xdc00 && c < 0xe000;
        if (high != 0 && !isLow) {
            high = 0;
            out.write('?');
        }
        if (c < 0x80) {
            out.write(c);
        } else if (greatest < 0xffff) {
            out.write(c <= greatest ? c : '?');
        } else if (c < 0x800) {
            out.write(0xc0 | c >> 6);
            out.write(0x80 | c & 63);
        } else if (c >= 0xd800 && c < 0xdc00) {
            high = c;
        } else if (!isLow) {
            out.write(0xe0 | c >> 12);
            out.write(0x80 | c >> 6 & 63);
            out.write(0x80 | c & 63);
        } else if (high == 0) {
            out.write('?');
        } else {
            int all = 0x10000 + ((high & 0x3ff) << 10) + (c & 0x3ff);
            high = 0;
            out.write(0xf0 | all >> 18);
            out.write(0x80 | all >> 12 & 63);
            out.write(0x80 | all >> 6 & 63);
            out.write(0x80 | all & 63);
        }
    }

    public void flush() throws IOException {
        out.flush();
    }

    public void close() throws IOException {
        out.close();
        out = new Closed();
    }
}
