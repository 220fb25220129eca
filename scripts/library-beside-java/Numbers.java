import java.math.BigInteger;
import java.util.Arrays;
import java.util.Objects;
import java.util.Random;
import java.util.Scanner;

/** Integer, Long, Short, Byte, Character, Boolean, Math, BigInteger, Random, and arrays of numbers. */
public class Numbers {
    static Object ofInts(Draws d, int which) {
        int a = d.anInt();
        int b = d.anInt();
        switch (which) {
            case 0: return Integer.toString(a) + " " + Integer.toString(a, d.below(39)) + " " + Integer.toHexString(a) + " "
                + Integer.toBinaryString(b);
            case 1: return Integer.toOctalString(a) + " " + Integer.bitCount(a) + " " + Integer.reverse(a) + " " + Integer.reverseBytes(a);
            case 2: return Integer.numberOfLeadingZeros(a) + " " + Integer.numberOfTrailingZeros(a) + " " + Integer.highestOneBit(a) + " "
                + Integer.lowestOneBit(a);
            case 3: return Integer.rotateLeft(a, b) + " " + Integer.rotateRight(a, b) + " " + Integer.signum(a) + " "
                + Integer.compare(a, b);
            case 4: return Integer.compareUnsigned(a, b) + " " + Integer.toUnsignedString(a) + " " + Integer.toUnsignedLong(a) + " "
                + Integer.divideUnsigned(a, b);
            case 5: return Integer.remainderUnsigned(a, b) + " " + Integer.max(a, b) + " " + Integer.min(a, b) + " " + Integer.sum(a, b);
            case 6: return Math.abs(a) + " " + Math.floorDiv(a, b) + " " + Math.floorMod(a, b) + " " + Math.max(a, b) + " "
                + Math.min(a, b);
            case 7: return Math.addExact(a, b);
            case 8: return Math.subtractExact(a, b);
            case 9: return Math.multiplyExact(a, b);
            case 10: return Math.negateExact(a) + " " + Math.incrementExact(a) + " " + Math.decrementExact(b);
            case 11: return Integer.valueOf(a).equals(a) + " " + Integer.valueOf(a).hashCode() + " " + Integer.valueOf(a).compareTo(b)
                + " " + Integer.valueOf(a).byteValue() + " " + Integer.valueOf(a).shortValue() + " " + Integer.valueOf(a).longValue();
            case 12: return (Integer.valueOf(a) == Integer.valueOf(a)) + " " + (a >= -128 && a < 128);
            case 13: return a / b + " " + a % b;
            default: return (a << b) + " " + (a >> b) + " " + (a >>> b) + " " + (byte) a + " " + (short) a + " " + (int) (char) a;
        }
    }

    static Object ofLongs(Draws d, int which) {
        long a = d.aLong();
        long b = d.aLong();
        switch (which) {
            case 0: return Long.toString(a) + " " + Long.toString(a, d.below(39)) + " " + Long.toHexString(a) + " "
                + Long.toBinaryString(b);
            case 1: return Long.toOctalString(a) + " " + Long.bitCount(a) + " " + Long.reverse(a) + " " + Long.reverseBytes(a);
            case 2: return Long.numberOfLeadingZeros(a) + " " + Long.numberOfTrailingZeros(a) + " " + Long.highestOneBit(a) + " "
                + Long.lowestOneBit(a);
            case 3: return Long.rotateLeft(a, (int) b) + " " + Long.rotateRight(a, (int) b) + " " + Long.signum(a) + " "
                + Long.compare(a, b) + " " + Long.hashCode(a);
            case 4: return Long.compareUnsigned(a, b) + " " + Long.toUnsignedString(a) + " " + Long.toUnsignedString(a, 16) + " "
                + Long.divideUnsigned(a, b);
            case 5: return Long.remainderUnsigned(a, b) + " " + Long.max(a, b) + " " + Long.min(a, b) + " " + Long.sum(a, b);
            case 6: return Math.abs(a) + " " + Math.floorDiv(a, b) + " " + Math.floorMod(a, b) + " " + Math.max(a, b) + " "
                + Math.min(a, b);
            case 7: return Math.addExact(a, b);
            case 8: return Math.subtractExact(a, b);
            case 9: return Math.multiplyExact(a, b);
            case 10: return Math.negateExact(a) + " " + Math.incrementExact(a) + " " + Math.decrementExact(b);
            case 11: return Math.toIntExact(a);
            case 12: return Long.valueOf(a).equals(a) + " " + Long.valueOf(a).intValue() + " " + Long.valueOf(a).compareTo(b) + " "
                + Long.parseUnsignedLong(Long.toUnsignedString(a));
            default: return (a << b) + " " + (a >> b) + " " + (a >>> b) + " " + (int) a + " " + Long.compare(a, b);
        }
    }

    static Object parsed(Draws d, int which) {
        String[] edges = {"", "-", "+", "2147483647", "2147483648", "-2147483648", "-2147483649", "9223372036854775807",
            "9223372036854775808", "-9223372036854775808", "-9223372036854775809", "18446744073709551615", "18446744073709551616",
            "127", "128", "-129", "32768", "0x1f", "#ff",
            "010", "-0x80000000", "4294967295", "4294967296", " 1", "1 ", "1_0", null};
        String s = d.coin() ? edges[d.below(edges.length)] : d.text("0123456789abc-", 6);
        switch (which) {
            case 0: return Integer.parseInt(s);
            case 1: return Integer.parseInt(s, 2 + d.below(15));
            case 2: return Long.parseLong(s);
            case 3: return Long.parseLong(s, 2 + d.below(15));
            case 4: return Integer.valueOf(s) + " " + new Integer(s);
            case 5: return s == null ? "null" : Integer.decode(s);
            case 6: return s == null ? "null" : Long.decode(s);
            case 7: return s == null ? "null" : Short.parseShort(s);
            case 8: return s == null ? "null" : Byte.parseByte(s);
            case 9: return s == null || s.startsWith("-") ? "null" : Integer.parseUnsignedInt(s);
            case 10: return s == null || s.startsWith("-") ? "null" : Long.parseUnsignedLong(s);
            case 11: return Boolean.parseBoolean(s) + " " + Boolean.valueOf("TRUE") + " " + Boolean.logicalXor(true, false);
            default:
                try {
                    return s == null ? "null" : String.valueOf(new BigInteger(s).bitLength());
                } catch (NumberFormatException e) {
                    return "no number";
                }
        }
    }

    static Object ofChars(Draws d) {
        char c = (char) d.below(256);
        StringBuilder all = new StringBuilder().append((int) c).append(' ');
        all.append(Character.isDigit(c)).append(Character.isLetter(c)).append(Character.isLetterOrDigit(c)).append(Character.isAlphabetic(c));
        all.append(Character.isUpperCase(c)).append(Character.isLowerCase(c)).append(Character.isWhitespace(c)).append(Character.isSpaceChar(c));
        all.append((int) Character.toUpperCase(c)).append(' ').append((int) Character.toLowerCase(c)).append(' ');
        all.append(Character.digit(c, 10)).append(Character.digit(c, 16));
        all.append(Character.getNumericValue(c)).append(Character.isISOControl(c));
        all.append(Character.isJavaIdentifierStart(c)).append(Character.isJavaIdentifierPart(c));
        all.append(Character.forDigit(d.below(40), 36) == '\0');
        all.append(Character.valueOf(c).compareTo('m')).append(Character.compare(c, 'm'));
        all.append(Character.toString(c).length()).append(Character.hashCode(c));
        return all;
    }

    static Object ofBig(Draws d, int which) {
        BigInteger a = big(d);
        BigInteger b = big(d);
        int n = d.below(100);
        switch (which) {
            case 0: return a.add(b) + " " + a.subtract(b);
            case 1: return a.multiply(b);
            case 2: return Arrays.toString(a.divideAndRemainder(b));
            case 3: return a.mod(b);
            case 4: return a.gcd(b) + " " + a.max(b) + " " + a.min(b) + " " + a.compareTo(b) + " " + a.equals(b);
            case 5: return a.shiftLeft(n) + " " + a.shiftRight(n) + " " + a.shiftLeft(-n);
            case 6: return a.and(b) + " " + a.or(b) + " " + a.xor(b) + " " + a.andNot(b) + " " + a.not();
            case 7: return a.testBit(n) + " " + a.setBit(n) + " " + a.clearBit(n) + " " + a.flipBit(n) + " " + a.bitLength() + " "
                + a.bitCount() + " " + a.getLowestSetBit();
            case 8: return a.modPow(BigInteger.valueOf(n), b);
            case 9: return a.modInverse(b);
            case 10: return a.toString(d.below(39)) + " " + a.hashCode() + " " + a.intValue() + " " + a.longValue() + " " + a.signum();
            case 11: return a.pow(d.below(6)) + " " + a.negate() + " " + a.abs();
            case 12: return (a.subtract(a) == BigInteger.ZERO) + " " + (a.mod(b) == BigInteger.ZERO) + " "
                + (BigInteger.valueOf(n - 20) == BigInteger.valueOf(n - 20)) + " " + a.intValueExact();
            case 13: return a.longValueExact();
            case 14: return new BigInteger(a.toString(16), 16).equals(a) + " " + BigInteger.valueOf(d.anInt()).isProbablePrime(20);
            default: return BigInteger.valueOf(d.below(100000)).nextProbablePrime();
        }
    }

    static BigInteger big(Draws d) {
        BigInteger n = BigInteger.valueOf(d.aLong());
        for (int k = d.below(4); k > 0; k--) {
            n = n.multiply(BigInteger.valueOf(d.aLong())).add(BigInteger.valueOf(d.anInt()));
        }
        return n;
    }

    static Object ofArrays(Draws d, int which) {
        int[] a = new int[d.below(40)];
        for (int i = 0; i < a.length; i++) {
            a[i] = d.coin() ? d.below(9) : d.anInt();
        }
        long[] l = new long[d.below(20)];
        for (int i = 0; i < l.length; i++) {
            l[i] = d.aLong();
        }
        char[] c = d.text("zyxwvabc", 20).toCharArray();
        byte[] b = d.text("zyxwvabc", 20).getBytes();
        int i = d.below(30) - 1;
        int j = d.below(30) - 1;
        switch (which) {
            case 0: Arrays.sort(a); return Arrays.toString(a);
            case 1: Arrays.sort(l); return Arrays.toString(l) + Arrays.hashCode(l);
            case 2: Arrays.sort(c); return Arrays.toString(c) + Arrays.hashCode(c) + Arrays.binarySearch(c, 'w');
            case 3: Arrays.sort(b); return Arrays.toString(b) + Arrays.hashCode(b) + Arrays.binarySearch(b, (byte) 'w');
            case 4: Arrays.sort(a, i, j); return Arrays.toString(a);
            case 5: Arrays.fill(a, i, j, 7); return Arrays.toString(a);
            case 6: return Arrays.toString(Arrays.copyOf(a, i)) + Arrays.toString(Arrays.copyOf(l, j));
            case 7: return Arrays.toString(Arrays.copyOfRange(a, i, j));
            case 8: Arrays.sort(a); return Arrays.binarySearch(a, 4) >= 0;
            case 9: return Arrays.equals(a, a.clone()) + " " + Arrays.equals(a, new int[a.length]) + " " + Arrays.hashCode(a);
            case 10: {
                int[][] grid = {a, null, {1, 2}};
                return Arrays.deepToString(grid) + Arrays.deepHashCode(grid) + Arrays.deepEquals(grid, grid.clone())
                    + Objects.deepEquals(grid, new int[3][2]);
            }
            case 11: {
                System.arraycopy(a, i, a, j, d.below(20));
                return Arrays.toString(a);
            }
            default: {
                boolean[] z = new boolean[5];
                short[] s = {3, 1, 2};
                Arrays.fill(z, true);
                Arrays.sort(s);
                return Arrays.toString(z) + Arrays.hashCode(z) + Arrays.toString(s) + Arrays.hashCode(s) + Arrays.toString((int[]) null);
            }
        }
    }

    static Object ofRandom(Draws d) {
        Random r = new Random(d.aLong());
        byte[] bytes = new byte[d.below(9)];
        r.nextBytes(bytes);
        return r.nextInt() + " " + r.nextInt(1 + d.below(1000)) + " " + r.nextInt(64) + " " + r.nextLong() + " " + r.nextBoolean()
            + Arrays.toString(bytes)
            + r.nextInt((1 << 30) + 1);
    }

    static Object call(Draws d, int which) {
        switch (which) {
            case 0: return ofInts(d, d.below(15));
            case 1: return ofLongs(d, d.below(14));
            case 2: return parsed(d, d.below(13));
            case 3: return ofChars(d);
            case 4: return ofBig(d, d.below(16));
            case 5: return ofArrays(d, d.below(13));
            case 6: return ofRandom(d);
            default: {
                short s = (short) d.anInt();
                byte b = (byte) d.anInt();
                return Short.valueOf(s).hashCode() + " " + Short.valueOf(s).compareTo((short) 5) + " " + Byte.valueOf(b) + " "
                    + Byte.valueOf(b).compareTo((byte) 3) + " " + Short.toString(s) + " " + Byte.toString(b) + " "
                    + Short.compare(s, b) + " " + Byte.compare(b, (byte) 9) + " " + Short.valueOf(s).equals(s)
                    + (Byte.valueOf(b) == Byte.valueOf(b)) + Short.reverseBytes(s) + " " + Short.toUnsignedInt(s) + " "
                    + Byte.toUnsignedInt(b);
            }
        }
    }

    public static void main(String[] args) {
        Draws d = new Draws(new Scanner(System.in).nextLong());
        for (int k = 0; k < 900; k++) {
            int which = k % 8;
            String answer;
            try {
                answer = String.valueOf(call(d, which));
            } catch (RuntimeException e) {
                answer = Draws.told(e);
            }
            System.out.println(which + ": " + answer);
        }
    }
}
