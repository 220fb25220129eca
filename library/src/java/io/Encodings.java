package java.io;

import java.nio.charset.Charset;
import java.nio.charset.StandardCharsets;

/** Texts as bytes, and bytes as texts. Public, since java.lang.String is in another run-time package. */
public final class Encodings {
    private Encodings() {
    }

    /** The charset of a name, where there is one. */
    public static Charset named(String name) throws UnsupportedEncodingException {
        if (!Charset.isSupported(name)) {
            throw new UnsupportedEncodingException(name);
        }
        return Charset.forName(name);
    }

    private static int greatest(Charset charset) {
        return charset == StandardCharsets.US_ASCII ? 0x7f : 0xff;
    }

    public static byte[] bytes(String text, Charset charset) {
        ByteArrayOutputStream out = new ByteArrayOutputStream(text.length());
        OutputStreamWriter writer = new OutputStreamWriter(out);
        int n = text.length();
        for (int i = 0; i < n; i++) {
            char c = text.charAt(i);
            if (charset != StandardCharsets.UTF_8) {
                out.write(c <= greatest(charset) ? c : '?');
            } else {
                try {
                    writer.write(c);
                } catch (IOException e) {
                    throw new IllegalStateException(e);
                }
            }
        }
        if (writer.isWithin()) {
            out.write('?');
        }
        return out.toByteArray();
    }

    public static String text(byte[] bytes, int offset, int count, Charset charset) {
        if (offset < 0 || count < 0 || offset > bytes.length - count) {
            throw new StringIndexOutOfBoundsException("offset " + offset + ", count " + count + ", length " + bytes.length);
        }
        StringBuilder out = new StringBuilder(count);
        if (charset != StandardCharsets.UTF_8) {
            for (int i = offset; i < offset + count; i++) {
                int b = bytes[i] & 0xff;
                out.append(b <= greatest(charset) ? (char) b : '\ufffd');
            }
            return out.toString();
        }
        InputStreamReader in = new InputStreamReader(new ByteArrayInputStream(bytes, offset, count));
        try {
            for (int c = in.read(); c >= 0; c = in.read()) {
                out.append((char) c);
            }
        } catch (IOException e) {
            throw new IllegalStateException(e);
        }
        return out.toString();
    }
}
