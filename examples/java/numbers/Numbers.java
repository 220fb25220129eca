import host.Io;

/** Computes with ints and longs: divisors, powers, Fibonacci numbers, shifts and conversions. */
public class Numbers {
    private static long calls;
    private long total;

    public static void main(String[] arguments) {
        print(divisor(1071, 462, 147));
        print(divisor());
        print(power(2, 1000000, -1000000007));
        print(fibonacci(90));
        line();
        shifts(0x123456789ABCDEFL, 12);
        shifts(-1L, 63);
        conversions(0x12345F6E7D8CL);
        compare(Constants.LONG, -1);
        compare(1L << 32, 1);
        divide(Constants.INT, -1);
        divide(7, 0);
        constants();
        stackForms();
    }

    /** The greatest common divisor, or 0 of nothing. */
    private static long divisor(long... values) {
        long result = 0;
        for (long value : values) {
            while (value != 0) {
                long rest = result % value;
                result = value;
                value = rest;
            }
        }
        return result;
    }

    private static long power(long base, int exponent, long modulus) {
        modulus = modulus < 0 ? -modulus : modulus;
        long result = 1;
        while (exponent > 0) {
            if ((exponent & 1) == 1) {
                result = result * base % modulus;
            }
            base = base * base % modulus;
            exponent >>>= 1;
        }
        return result;
    }

    /** By powers of a matrix. */
    private static long fibonacci(int index) {
        long[][] result = {{1, 0}, {0, 1}};
        long[][] base = {{1, 1}, {1, 0}};
        for (; index > 0; index >>= 1) {
            if (index % 2 != 0) {
                result = product(result, base);
            }
            base = product(base, base);
        }
        return result[0][1];
    }

    private static long[][] product(long[][] left, long[][] right) {
        long[][] result = new long[2][2];
        for (int row = 0; row < 2; row++) {
            for (int column = 0; column < 2; column++) {
                for (int place = 0; place < 2; place++) {
                    result[row][column] += left[row][place] * right[place][column];
                }
            }
        }
        return result;
    }

    private static void shifts(long value, int distance) {
        int small = (int) value;
        print(value << distance);
        print(value >> distance);
        print(value >>> distance);
        print(small << distance);
        print(small >> distance);
        print(small >>> distance);
        print((value & 0xFF00FFL | 0x100L) ^ ~value);
        print((small & 0xFF | 0x100) ^ ~small);
        line();
    }

    private static void conversions(long value) {
        print((byte) value);
        print((short) value);
        print((char) value);
        print((int) value);
        byte small = (byte) value;
        small += 100;
        print(small);
        short middle = (short) value;
        middle--;
        print(middle);
        char letter = 'z';
        letter *= 1000;
        print(letter);
        line();
    }

    private static void compare(long left, long right) {
        Io.write(left < right ? '<' : '-');
        Io.write(left <= right ? '<' : '-');
        Io.write(left > right ? '>' : '-');
        Io.write(left >= right ? '>' : '-');
        Io.write(left == right ? '=' : '-');
        Io.write(left != right ? '!' : '-');
        line();
    }

    private static void divide(int dividend, int divisor) {
        try {
            print(dividend / divisor);
            print(dividend % divisor);
            print((long) dividend / divisor);
            print((long) dividend % divisor);
            print(-(long) dividend);
            print(-dividend);
        } catch (ArithmeticException fault) {
            Io.write('?');
        }
        line();
    }

    private static void constants() {
        print(Constants.INT);
        print(Constants.SHORT);
        print(Constants.CHAR);
        print(Constants.BYTE);
        print(Constants.TRUE ? 1 : 0);
        print(Constants.LONG);
        print(Constants.TEXT.length());
        print(Constants.FIRST);
        Constants constants = new Constants();
        print(constants.fixed());
        print(constants.made);
        print(Constants.counter);
        print(Constants.POWERS[18]);
        line();
    }

    /** Assignments that are values, of fields and elements of one and of two words. */
    private static void stackForms() {
        Numbers numbers = new Numbers();
        int[] small = {1, 2};
        long[] large = {1, 2};
        print(numbers.total++);
        print(numbers.total += small[0]++);
        print(large[1] = large[0]++ + --small[1]);
        print(large[0] <<= 40);
        print(calls++);
        numbers.add(1000).add(5);
        print(numbers.total);
        print(calls);
        fibonacci(3);
        line();
    }

    private Numbers add(int amount) {
        calls += 1;
        total += amount;
        return this;
    }

    private static void print(long number) {
        if (number < 0) {
            Io.write('-');
        }
        digits(number < 0 ? number : -number);
        Io.write(' ');
    }

    /** The digits of a number that isn't positive. */
    private static void digits(long negative) {
        if (negative <= -10) {
            digits(negative / 10);
        }
        Io.write((int) ('0' - negative % 10));
    }

    private static void line() {
        Io.write('\n');
    }
}
