/** Loops, branches and arithmetic on ints. */
public class Loops {
    public static void main(String[] arguments) {
        int sum = 0;
        for (int i = 0; i < 50_000_000; i++) {
            if ((i & 3) == 0) {
                sum = sum * 31 + i;
            } else {
                sum ^= i >>> 2;
            }
        }
        host.Io.write(sum);
    }
}
