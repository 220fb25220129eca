import java.math.BigInteger;
import java.util.*;

/** Bytes and big numbers: keys, checksums, hex, and texts as numbers and back. */
public class Keys {
    static String hex(byte[] b) {
        StringBuilder s = new StringBuilder();
        for (byte x : b) s.append(Character.forDigit(x >> 4 & 15, 16)).append(Character.forDigit(x & 15, 16));
        return s.toString();
    }
    static byte[] unhex(String s) {
        byte[] b = new byte[s.length() / 2];
        for (int i = 0; i < b.length; i++) b[i] = (byte) Integer.parseInt(s.substring(2 * i, 2 * i + 2), 16);
        return b;
    }
    public static void main(String[] args) throws Exception {
        BigInteger p = BigInteger.ONE.shiftLeft(127).subtract(BigInteger.ONE), q = BigInteger.ONE.shiftLeft(89).subtract(BigInteger.ONE);
        BigInteger n = p.multiply(q), e = BigInteger.valueOf(65537);
        BigInteger d = e.modInverse(p.subtract(BigInteger.ONE).multiply(q.subtract(BigInteger.ONE)));
        byte[] text = "Attack at dawn, Zoë".getBytes("UTF-8");
        BigInteger m = new BigInteger(1, text), c = m.modPow(e, n);
        System.out.println(hex(m.toByteArray()) + " " + m.bitLength());
        System.out.println(hex(c.toByteArray()));
        System.out.println(new String(c.modPow(d, n).toByteArray(), "UTF-8"));
        for (long l : new long[] {0, 1, -1, 127, 128, -128, -129, 255, 256, 65535, -65536, Long.MAX_VALUE, Long.MIN_VALUE}) {
            byte[] b = BigInteger.valueOf(l).toByteArray();
            System.out.print(hex(b) + (new BigInteger(b).longValue() == l ? " " : "? "));
        }
        System.out.println();
        for (String s : new String[] {"ffffffff00", "80000000", "0000000000000001", "7f00ff00ff00"}) {
            System.out.print(new BigInteger(unhex(s)) + " " + new BigInteger(1, unhex(s)) + " " + new BigInteger(-1, unhex(s)) + "; ");
        }
        System.out.println(new BigInteger(0, new byte[2]));
        int a = 1, b = 0;
        for (byte x : text) { a = (a + (x & 0xff)) % 65521; b = (b + a) % 65521; }
        System.out.println(Integer.toHexString(b << 16 | a) + " " + Arrays.hashCode(text));
        try { new BigInteger(new byte[0]); } catch (NumberFormatException x) { System.out.println(x.getMessage()); }
        try { new BigInteger(2, new byte[1]); } catch (NumberFormatException x) { System.out.println(x.getMessage()); }
        try { new BigInteger(0, new byte[] {1}); } catch (NumberFormatException x) { System.out.println(x.getMessage()); }
    }
}
