/** A large factorial, over digits of base 10,000 in an array of ints, with longs in between. */
public class Digits {
    static int multiply(int[] digits, int count, int factor) {
        long carried = 0;
        for (int i = 0; i < count; i++) {
            long product = (long) digits[i] * factor + carried;
            digits[i] = (int) (product % 10_000);
            carried = product / 10_000;
        }
        while (carried != 0) {
            digits[count] = (int) (carried % 10_000);
            carried /= 10_000;
            count++;
        }
        return count;
    }

    public static void main(String[] arguments) {
        int[] digits = new int[7_000];
        digits[0] = 1;
        int count = 1;
        for (int factor = 2; factor <= 8_000; factor++) {
            count = multiply(digits, count, factor);
        }
        int sum = 0;
        for (int i = 0; i < count; i++) {
            sum = sum * 31 + digits[i];
        }
        host.Io.write(count);
        host.Io.write(sum);
    }
}
