package java.io;

import java.nio.charset.Charset;
import java.nio.charset.StandardCharsets;

/** The bytes of a stream as chars: of UTF-8 U+FFFD for what isn't. It reads no byte before it is asked for its char. */
public class InputStreamReader extends CharReader {
    private static final int NONE = -2;

    private InputStream in;
    private final boolean isHost;
    private final Charset charset;
    private int low = -1;
    private int next = NONE;

    public InputStreamReader(InputStream in) {
        this(in, StandardCharsets.UTF_8);
    }

    public InputStreamReader(InputStream in, String charset) throws UnsupportedEncodingException {
        this(in, Encodings.named(charset));
    }

    public InputStreamReader(InputStream in, Charset charset) {
        this.in = java.util.Objects.requireNonNull(in);
        this.isHost = in instanceof HostInput;
        this.charset = charset;
    }

    private int take() throws IOException {
        int b = next;
        next = NONE;
        return b != NONE ? b : in.read();
    }

    /** The six bits of the byte that goes on, or -1 where none does: then that byte is kept. */
    private int more(int least, int most) throws IOException {
        int b = take();
        if (b < least || b > most) {
            next = b;
            return -1;
        }
        return b & 63;
    }

    public int read() throws IOException {
        if (low >= 0) {
            int c = low;
            low = -1;
            return c;
        }
        int b = next == NONE && isHost && HostInput.waiting == HostInput.NONE ? host.Io.read() : take();
        return b < 0x80 ? b : charset == StandardCharsets.UTF_8 ? several(b) : charset == StandardCharsets.US_ASCII ? 0xfffd : b;
    }

    /** A char of several bytes: the second one has other bounds behind some, so that each char has one form, and none is half of a pair. */
    private int several(int b) throws IOException {
        if (b < 0xc2 || b > 0xf4) {
            return 0xfffd;
        }
        int second = more(b == 0xe0 ? 0xa0 : b == 0xf0 ? 0x90 : 0x80, b == 0xed ? 0x9f : b == 0xf4 ? 0x8f : 0xbf);
        if (second < 0) {
            return 0xfffd;
        }
        if (b < 0xe0) {
            return (b & 31) << 6 | second;
        }
        int third = more(0x80, 0xbf);
        if (third < 0) {
            return 0xfffd;
        }
        if (b < 0xf0) {
            return (b & 15) << 12 | second << 6 | third;
        }
        int fourth = more(0x80, 0xbf);
        if (fourth < 0) {
            return 0xfffd;
        }
        int c = ((b & 7) << 18 | second << 12 | third << 6 | fourth) - 0x10000;
        low = 0xdc00 | c & 0x3ff;
        return 0xd800 | c >> 10;
    }

    public boolean ready() throws IOException {
        return low >= 0 || next >= 0 || in.available() > 0;
    }

    public void close() throws IOException {
        in.close();
        in = new ClosedInput();
        low = -1;
        next = NONE;
    }
}
