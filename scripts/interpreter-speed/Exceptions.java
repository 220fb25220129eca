/** Exceptions that are thrown through a call and caught. */
public class Exceptions {
    static final RuntimeException ONE = new RuntimeException();

    static int odd(int n) {
        if ((n & 1) == 0) {
            throw ONE;
        }
        return n;
    }

    public static void main(String[] arguments) {
        int caught = 0;
        for (int i = 0; i < 5_000_000; i++) {
            try {
                caught += odd(i) & 1;
            } catch (IllegalStateException e) {
                caught += 5;
            } catch (RuntimeException e) {
                caught += 2;
            }
        }
        host.Io.write(caught);
    }
}
