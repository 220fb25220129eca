/** Arithmetic on longs. */
public class Longs {
    public static void main(String[] arguments) {
        long seed = 42;
        for (int i = 0; i < 40_000_000; i++) {
            seed = (seed * 6364136223846793005L + 1442695040888963407L) ^ (seed >>> 17);
        }
        host.Io.write((int) (seed >>> 40));
    }
}
