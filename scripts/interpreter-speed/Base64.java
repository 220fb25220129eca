/** Bytes to base 64 and back, over arrays of bytes. */
public class Base64 {
    static final byte[] LETTERS = new byte[64];
    static final byte[] VALUES = new byte[128];

    static void begin() {
        for (int i = 0; i < 64; i++) {
            int letter = i < 26 ? 'A' + i : i < 52 ? 'a' + i - 26 : i < 62 ? '0' + i - 52 : i == 62 ? '+' : '/';
            LETTERS[i] = (byte) letter;
            VALUES[letter] = (byte) i;
        }
    }

    static void encode(byte[] bytes, byte[] text) {
        int to = 0;
        for (int i = 0; i + 2 < bytes.length; i += 3) {
            int bits = (bytes[i] & 255) << 16 | (bytes[i + 1] & 255) << 8 | bytes[i + 2] & 255;
            text[to] = LETTERS[bits >>> 18];
            text[to + 1] = LETTERS[bits >>> 12 & 63];
            text[to + 2] = LETTERS[bits >>> 6 & 63];
            text[to + 3] = LETTERS[bits & 63];
            to += 4;
        }
    }

    static void decode(byte[] text, byte[] bytes) {
        int to = 0;
        for (int i = 0; i + 3 < text.length; i += 4) {
            int bits = VALUES[text[i]] << 18 | VALUES[text[i + 1]] << 12 | VALUES[text[i + 2]] << 6 | VALUES[text[i + 3]];
            bytes[to] = (byte) (bits >> 16);
            bytes[to + 1] = (byte) (bits >> 8);
            bytes[to + 2] = (byte) bits;
            to += 3;
        }
    }

    public static void main(String[] arguments) {
        begin();
        byte[] bytes = new byte[300_000];
        byte[] text = new byte[400_000];
        for (int i = 0; i < bytes.length; i++) {
            bytes[i] = (byte) (i * 31 + (i >>> 8));
        }
        int sum = 0;
        for (int round = 0; round < 30; round++) {
            encode(bytes, text);
            decode(text, bytes);
            bytes[round] ^= 1;
            sum = sum * 31 + text[round * 4 + 1];
        }
        for (int i = 0; i < bytes.length; i++) {
            sum = sum * 31 + bytes[i];
        }
        host.Io.write(sum);
    }
}
