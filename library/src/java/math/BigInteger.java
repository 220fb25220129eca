package java.math;

import java.util.Arrays;
import java.util.Random;

/** An integer of any size: a sign, and digits of 32 bits, the least first, the greatest not 0. */
public class BigInteger extends Number implements Comparable<BigInteger> {
    private static final long MASK = 0xffffffffL;
    private static final int[] NOTHING = {};
    /** Those of -16 to 16 that were asked for: there is one of each. */
    private static final BigInteger[] SMALL = new BigInteger[33];

    public static final BigInteger ZERO = valueOf(0);
    public static final BigInteger ONE = valueOf(1);
    public static final BigInteger TEN = valueOf(10);

    private static final BigInteger TWO = valueOf(2);

    private final int sign;
    private final int[] digits;

    private BigInteger(int sign, int[] digits) {
        int n = digits.length;
        while (n > 0 && digits[n - 1] == 0) {
            n--;
        }
        this.sign = n == 0 ? 0 : sign;
        this.digits = n == digits.length ? digits : Arrays.copyOf(digits, n);
    }

    /** What a size and a sign are, and ZERO itself for 0. */
    private static BigInteger of(int sign, int[] digits) {
        BigInteger r = new BigInteger(sign, digits);
        return r.sign == 0 ? ZERO : r;
    }

    public BigInteger(String text) {
        this(text, 10);
    }

    public BigInteger(String text, int radix) {
        this(text.startsWith("-") ? -1 : 1, parse(text, text.startsWith("-") || text.startsWith("+") ? 1 : 0, radix));
    }

    public BigInteger(byte[] bytes) {
        this(bytes.length > 0 && bytes[0] < 0 ? -1 : 1, read(bytes, true));
    }

    public BigInteger(int sign, byte[] bytes) {
        this(sign, checked(sign, read(bytes, false)));
    }

    private static int[] checked(int sign, int[] digits) {
        if (sign < -1 || sign > 1) {
            throw new NumberFormatException("Invalid signum value");
        }
        for (int k = 0; sign == 0 && k < digits.length; k++) {
            if (digits[k] != 0) {
                throw new NumberFormatException("signum-magnitude mismatch");
            }
        }
        return digits;
    }

    /** The size that bytes spell, the greatest first: of two's complement where they are signed. */
    private static int[] read(byte[] bytes, boolean signed) {
        int n = bytes.length;
        if (signed && n == 0) {
            throw new NumberFormatException("Zero length BigInteger");
        }
        boolean below = signed && bytes[0] < 0;
        int[] all = new int[n / 4 + 1];
        int carry = below ? 1 : 0;
        for (int k = 0; k < n; k++) {
            int b = bytes[n - 1 - k] & 0xff;
            b = below ? (b ^ 0xff) + carry : b;
            carry = b >>> 8;
            all[k / 4] |= (b & 0xff) << 8 * (k & 3);
        }
        return all;
    }

    public byte[] toByteArray() {
        byte[] bytes = new byte[bitLength() / 8 + 1];
        for (int k = 0; k < bytes.length; k += 4) {
            int word = bits(k / 4);
            for (int j = 0; j < 4 && k + j < bytes.length; j++) {
                bytes[bytes.length - 1 - k - j] = (byte) (word >> 8 * j);
            }
        }
        return bytes;
    }

    public BigInteger(int bits, Random random) {
        this(1, drawn(bits, random));
    }

    private static int[] drawn(int bits, Random random) {
        if (bits < 0) {
            throw new IllegalArgumentException("numBits must be non-negative");
        }
        byte[] bytes = new byte[(int) ((bits + 7L) / 8)];
        random.nextBytes(bytes);
        if ((bits & 7) != 0) {
            bytes[0] &= (1 << (bits & 7)) - 1;
        }
        return read(bytes, false);
    }

    private static int[] parse(String text, int from, int radix) {
        if (radix != known(radix)) {
            throw new NumberFormatException("Radix out of range");
        }
        if (from == text.length()) {
            throw new NumberFormatException("Zero length BigInteger");
        }
        if (text.lastIndexOf('-') > 0 || text.lastIndexOf('+') > 0) {
            throw new NumberFormatException("Illegal embedded sign character");
        }
        int[] all = new int[(int) ((text.length() - from) * (long) bitsFor(radix) / 32 + 1)];
        for (int i = from; i < text.length(); i++) {
            int digit = Character.digit(text.charAt(i), radix);
            if (digit < 0) {
                throw new NumberFormatException("For input string: \"" + text + "\"");
            }
            timesPlus(all, radix, digit);
        }
        return all;
    }

    /** A radix that there isn't counts as 10. */
    private static int known(int radix) {
        return radix < Character.MIN_RADIX || radix > Character.MAX_RADIX ? 10 : radix;
    }

    private static int bitsFor(int radix) {
        return 32 - Integer.numberOfLeadingZeros(radix - 1);
    }

    private static void timesPlus(int[] a, int by, int more) {
        long carry = more & MASK;
        for (int k = 0; k < a.length; k++) {
            long d = (a[k] & MASK) * by + carry;
            a[k] = (int) d;
            carry = d >>> 32;
        }
    }

    public static BigInteger valueOf(long l) {
        boolean isSmall = l >= -16 && l <= 16;
        if (isSmall && SMALL[(int) l + 16] != null) {
            return SMALL[(int) l + 16];
        }
        long size = Math.abs(l);
        int[] two = {(int) size, (int) (size >>> 32)};
        BigInteger r = new BigInteger(l < 0 ? -1 : 1, two);
        if (isSmall) {
            SMALL[(int) l + 16] = r;
        }
        return r;
    }

    // ---- sizes, which have no sign

    private static int compare(int[] a, int[] b) {
        if (a.length != b.length) {
            return a.length < b.length ? -1 : 1;
        }
        for (int k = a.length - 1; k >= 0; k--) {
            if (a[k] != b[k]) {
                return (a[k] & MASK) < (b[k] & MASK) ? -1 : 1;
            }
        }
        return 0;
    }

    private static int[] sum(int[] a, int[] b) {
        int[] r = new int[Math.max(a.length, b.length) + 1];
        long carry = 0;
        for (int k = 0; k < r.length; k++) {
            carry += (k < a.length ? a[k] & MASK : 0) + (k < b.length ? b[k] & MASK : 0);
            r[k] = (int) carry;
            carry >>>= 32;
        }
        return r;
    }

    /** Of a greater and a lesser. */
    private static int[] difference(int[] a, int[] b) {
        int[] r = new int[a.length];
        long carry = 0;
        for (int k = 0; k < r.length; k++) {
            carry += (a[k] & MASK) - (k < b.length ? b[k] & MASK : 0);
            r[k] = (int) carry;
            carry >>= 32;
        }
        return r;
    }

    private static int[] product(int[] a, int[] b) {
        int[] r = new int[a.length + b.length];
        for (int i = 0; i < a.length; i++) {
            long x = a[i] & MASK;
            long carry = 0;
            for (int j = 0; j < b.length; j++) {
                carry += x * (b[j] & MASK) + (r[i + j] & MASK);
                r[i + j] = (int) carry;
                carry >>>= 32;
            }
            r[i + b.length] = (int) carry;
        }
        return r;
    }

    /** Divides so many digits in place by a divisor of one digit, and answers the rest. */
    private static int divideBy(int[] a, int count, int by) {
        long divisor = by & MASK;
        long rest = 0;
        for (int k = count - 1; k >= 0; k--) {
            long d = rest << 32 | a[k] & MASK;
            long q = d >= 0 ? d / divisor : Long.divideUnsigned(d, divisor);
            a[k] = (int) q;
            rest = d - q * divisor;
        }
        return (int) rest;
    }

    private static int[] shiftedLeft(int[] a, int by) {
        int whole = by >>> 5;
        int part = by & 31;
        int[] r = new int[a.length + whole + 1];
        for (int k = 0; k < a.length; k++) {
            r[k + whole] |= a[k] << part;
            if (part != 0) {
                r[k + whole + 1] = a[k] >>> 32 - part;
            }
        }
        return r;
    }

    private static int[] shiftedRight(int[] a, int by) {
        int whole = by >>> 5;
        int part = by & 31;
        if (whole >= a.length) {
            return NOTHING;
        }
        int[] r = new int[a.length - whole];
        for (int k = 0; k < r.length; k++) {
            r[k] = a[k + whole] >>> part;
            if (part != 0 && k + whole + 1 < a.length) {
                r[k] |= a[k + whole + 1] << 32 - part;
            }
        }
        return r;
    }

    /** The quotient and the rest, by a divisor of two digits or more: a digit of the quotient is guessed from the two in front. */
    private static int[][] longDivision(int[] a, int[] b) {
        int n = b.length;
        int shift = Integer.numberOfLeadingZeros(b[n - 1]);
        int[] v = Arrays.copyOf(shiftedLeft(b, shift), n);
        int[] u = Arrays.copyOf(shiftedLeft(a, shift), a.length + 1);
        int[] q = new int[a.length - n + 1];
        long front = v[n - 1] & MASK;
        long second = v[n - 2] & MASK;
        for (int j = a.length - n; j >= 0; j--) {
            long two = (long) u[j + n] << 32 | u[j + n - 1] & MASK;
            long guess = two >= 0 ? two / front : Long.divideUnsigned(two, front);
            long rest = two - guess * front;
            while (rest >>> 32 == 0
                    && (guess >>> 32 != 0 || Long.compareUnsigned(guess * second, rest << 32 | u[j + n - 2] & MASK) > 0)) {
                guess--;
                rest += front;
            }
            if (isTooMuch(u, v, j, guess)) {
                guess--;
                addBack(u, v, j);
            }
            q[j] = (int) guess;
        }
        return new int[][] {q, shiftedRight(u, shift)};
    }

    /** Takes the divisor so many times from a place on, and tells whether that was more than there was. */
    private static boolean isTooMuch(int[] u, int[] v, int at, long times) {
        long carry = 0;
        long borrow = 0;
        for (int k = 0; k < v.length; k++) {
            carry += times * (v[k] & MASK);
            borrow += (u[at + k] & MASK) - (carry & MASK);
            u[at + k] = (int) borrow;
            carry >>>= 32;
            borrow >>= 32;
        }
        borrow += (u[at + v.length] & MASK) - carry;
        u[at + v.length] = (int) borrow;
        return borrow < 0;
    }

    private static void addBack(int[] u, int[] v, int at) {
        long carry = 0;
        for (int k = 0; k < v.length; k++) {
            carry += (u[at + k] & MASK) + (v[k] & MASK);
            u[at + k] = (int) carry;
            carry >>>= 32;
        }
        u[at + v.length] += (int) carry;
    }

    // ---- arithmetic

    public BigInteger negate() {
        return new BigInteger(-sign, digits);
    }

    public BigInteger abs() {
        return sign < 0 ? negate() : this;
    }

    public int signum() {
        return sign;
    }

    public BigInteger add(BigInteger other) {
        if (other.sign == 0) {
            return this;
        }
        if (sign == 0) {
            return other;
        }
        if (sign == other.sign) {
            return new BigInteger(sign, sum(digits, other.digits));
        }
        return compare(digits, other.digits) >= 0 ? of(sign, difference(digits, other.digits))
            : new BigInteger(other.sign, difference(other.digits, digits));
    }

    public BigInteger subtract(BigInteger other) {
        return add(other.negate());
    }

    public BigInteger multiply(BigInteger other) {
        return of(sign * other.sign, product(digits, other.digits));
    }

    public BigInteger pow(int n) {
        if (n < 0) {
            throw new ArithmeticException("Negative exponent");
        }
        BigInteger r = ONE;
        BigInteger b = this;
        int k = n;
        while (k > 0) {
            if ((k & 1) != 0) {
                r = r.multiply(b);
            }
            k >>= 1;
            if (k > 0) {
                b = b.multiply(b);
            }
        }
        return r;
    }

    public BigInteger[] divideAndRemainder(BigInteger other) {
        if (other.sign == 0) {
            throw new ArithmeticException("BigInteger divide by zero");
        }
        if (compare(digits, other.digits) < 0) {
            return new BigInteger[] {ZERO, this};
        }
        if (other.digits.length == 1) {
            int[] q = Arrays.copyOf(digits, digits.length);
            int[] rest = {divideBy(q, q.length, other.digits[0])};
            return new BigInteger[] {new BigInteger(sign * other.sign, q), of(sign, rest)};
        }
        int[][] both = longDivision(digits, other.digits);
        return new BigInteger[] {new BigInteger(sign * other.sign, both[0]), of(sign, both[1])};
    }

    public BigInteger divide(BigInteger other) {
        return divideAndRemainder(other)[0];
    }

    public BigInteger remainder(BigInteger other) {
        return divideAndRemainder(other)[1];
    }

    public BigInteger mod(BigInteger m) {
        if (m.sign <= 0) {
            throw new ArithmeticException("BigInteger: modulus not positive");
        }
        BigInteger r = remainder(m);
        return r.sign < 0 ? r.add(m) : r;
    }

    public BigInteger modPow(BigInteger power, BigInteger m) {
        if (m.sign <= 0) {
            throw new ArithmeticException("BigInteger: modulus not positive");
        }
        if (power.sign < 0) {
            return modInverse(m).modPow(power.negate(), m);
        }
        BigInteger r = ONE.mod(m);
        BigInteger b = mod(m);
        int n = power.bitLength();
        for (int k = 0; k < n; k++) {
            if (power.testBit(k)) {
                r = r.multiply(b).mod(m);
            }
            b = b.multiply(b).mod(m);
        }
        return r;
    }

    public BigInteger modInverse(BigInteger m) {
        if (m.sign <= 0) {
            throw new ArithmeticException("BigInteger: modulus not positive");
        }
        BigInteger a = m;
        BigInteger b = mod(m);
        BigInteger x = ZERO;
        BigInteger y = ONE;
        while (b.sign != 0) {
            BigInteger[] both = a.divideAndRemainder(b);
            BigInteger next = x.subtract(both[0].multiply(y));
            a = b;
            b = both[1];
            x = y;
            y = next;
        }
        if (!a.equals(ONE)) {
            throw new ArithmeticException("BigInteger not invertible.");
        }
        return x.mod(m);
    }

    public BigInteger gcd(BigInteger other) {
        BigInteger a = abs();
        BigInteger b = other.abs();
        while (b.sign != 0) {
            BigInteger r = a.remainder(b);
            a = b;
            b = r;
        }
        return a;
    }

    public BigInteger max(BigInteger other) {
        return compareTo(other) >= 0 ? this : other;
    }

    public BigInteger min(BigInteger other) {
        return compareTo(other) <= 0 ? this : other;
    }

    /**
     * By strong tests: no composite number of at most 31, 41, 48 or 81 bits passes those of the first 4, 6, 7 or 13 primes. A greater one
     * may pass.
     */
    public boolean isProbablePrime(int certainty) {
        BigInteger n = abs();
        if (certainty <= 0) {
            return true;
        }
        if (n.compareTo(TWO) < 0) {
            return false;
        }
        int[] bases = {2, 3, 5, 7, 11, 13, 17, 19, 23, 29, 31, 37, 41};
        int size = n.bitLength();
        int count = size <= 31 ? 4 : size <= 41 ? 6 : size <= 48 ? 7 : bases.length;
        BigInteger less = n.subtract(ONE);
        int twos = less.getLowestSetBit();
        BigInteger odd = less.shiftRight(twos);
        for (int base : bases) {
            BigInteger a = valueOf(base);
            if (n.remainder(a).sign == 0) {
                return n.equals(a);
            }
        }
        for (int k = 0; k < count; k++) {
            if (!passes(n, less, valueOf(bases[k]).modPow(odd, n), twos)) {
                return false;
            }
        }
        return true;
    }

    private static boolean passes(BigInteger n, BigInteger less, BigInteger power, int twos) {
        BigInteger x = power;
        if (x.equals(ONE)) {
            return true;
        }
        for (int k = 0; k < twos; k++) {
            if (x.equals(less)) {
                return true;
            }
            x = x.multiply(x).mod(n);
        }
        return false;
    }

    public BigInteger nextProbablePrime() {
        if (sign < 0) {
            throw new ArithmeticException("start < 0: " + this);
        }
        BigInteger n = add(ONE);
        while (!n.isProbablePrime(100)) {
            n = n.add(ONE);
        }
        return n;
    }

    // ---- bits, of the two's complement

    public BigInteger shiftLeft(int n) {
        return n < 0 ? shiftRight(-n) : of(sign, shiftedLeft(digits, n));
    }

    public BigInteger shiftRight(int n) {
        if (n < 0) {
            return shiftLeft(-n);
        }
        BigInteger r = new BigInteger(sign, shiftedRight(digits, n));
        return sign < 0 && getLowestSetBit() < n ? r.subtract(ONE) : r;
    }

    /** A digit of the two's complement. */
    private int bits(int place) {
        if (place >= digits.length) {
            return sign < 0 ? -1 : 0;
        }
        if (sign >= 0) {
            return digits[place];
        }
        int low = 0;
        while (digits[low] == 0) {
            low++;
        }
        return place < low ? 0 : place == low ? -digits[place] : ~digits[place];
    }

    private static BigInteger ofBits(int[] bits) {
        if (bits[bits.length - 1] >= 0) {
            return new BigInteger(1, bits);
        }
        long carry = 1;
        for (int k = 0; k < bits.length; k++) {
            carry += ~bits[k] & MASK;
            bits[k] = (int) carry;
            carry >>>= 32;
        }
        return new BigInteger(-1, bits);
    }

    private int[] room(BigInteger other) {
        return new int[Math.max(digits.length, other.digits.length) + 1];
    }

    public BigInteger and(BigInteger other) {
        int[] r = room(other);
        for (int k = 0; k < r.length; k++) {
            r[k] = bits(k) & other.bits(k);
        }
        return ofBits(r);
    }

    public BigInteger or(BigInteger other) {
        int[] r = room(other);
        for (int k = 0; k < r.length; k++) {
            r[k] = bits(k) | other.bits(k);
        }
        return ofBits(r);
    }

    public BigInteger xor(BigInteger other) {
        int[] r = room(other);
        for (int k = 0; k < r.length; k++) {
            r[k] = bits(k) ^ other.bits(k);
        }
        return ofBits(r);
    }

    public BigInteger andNot(BigInteger other) {
        return and(other.not());
    }

    public BigInteger not() {
        return negate().subtract(ONE);
    }

    private static void check(int n) {
        if (n < 0) {
            throw new ArithmeticException("Negative bit address");
        }
    }

    public boolean testBit(int n) {
        check(n);
        return (bits(n >>> 5) & 1 << (n & 31)) != 0;
    }

    public BigInteger setBit(int n) {
        check(n);
        return or(ONE.shiftLeft(n));
    }

    public BigInteger clearBit(int n) {
        check(n);
        return andNot(ONE.shiftLeft(n));
    }

    public BigInteger flipBit(int n) {
        check(n);
        return xor(ONE.shiftLeft(n));
    }

    public int getLowestSetBit() {
        for (int k = 0; k < digits.length; k++) {
            if (digits[k] != 0) {
                return 32 * k + Integer.numberOfTrailingZeros(digits[k]);
            }
        }
        return -1;
    }

    public int bitLength() {
        if (sign < 0) {
            return not().bitLength();
        }
        int n = digits.length;
        return n == 0 ? 0 : 32 * n - Integer.numberOfLeadingZeros(digits[n - 1]);
    }

    public int bitCount() {
        if (sign < 0) {
            return not().bitCount();
        }
        int n = 0;
        for (int d : digits) {
            n += Integer.bitCount(d);
        }
        return n;
    }

    // ---- what it is as another

    public int compareTo(BigInteger other) {
        if (sign != other.sign) {
            return sign < other.sign ? -1 : 1;
        }
        return sign * compare(digits, other.digits);
    }

    public boolean equals(Object o) {
        return o instanceof BigInteger && compareTo((BigInteger) o) == 0;
    }

    public int hashCode() {
        int h = 0;
        for (int k = digits.length - 1; k >= 0; k--) {
            h = 31 * h + digits[k];
        }
        return sign * h;
    }

    public int intValue() {
        return bits(0);
    }

    public long longValue() {
        return (long) bits(1) << 32 | bits(0) & MASK;
    }

    public int intValueExact() {
        if (bitLength() > 31) {
            throw new ArithmeticException("BigInteger out of int range");
        }
        return intValue();
    }

    public long longValueExact() {
        if (bitLength() > 63) {
            throw new ArithmeticException("BigInteger out of long range");
        }
        return longValue();
    }

    public String toString() {
        return toString(10);
    }

    public String toString(int given) {
        if (sign == 0) {
            return "0";
        }
        int radix = known(given);
        int by = radix;
        int places = 1;
        while ((long) by * radix <= Integer.MAX_VALUE) {
            by *= radix;
            places++;
        }
        char[] chars = new char[32 * digits.length + places + 1];
        int at = chars.length;
        int[] rest = Arrays.copyOf(digits, digits.length);
        int n = rest.length;
        while (n > 0) {
            int part = divideBy(rest, n, by);
            while (n > 0 && rest[n - 1] == 0) {
                n--;
            }
            for (int k = 0; k < places && (n > 0 || part != 0); k++) {
                at--;
                chars[at] = Character.forDigit(part % radix, radix);
                part /= radix;
            }
        }
        if (sign < 0) {
            at--;
            chars[at] = '-';
        }
        return String.valueOf(chars, at, chars.length - at);
    }
}
