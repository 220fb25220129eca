/** Conway's life on a torus, over arrays of bytes. */
public class Life {
    static final int SIDE = 256;

    static void live(byte[] now, byte[] next) {
        for (int y = 0; y < SIDE; y++) {
            int above = ((y + SIDE - 1) & (SIDE - 1)) * SIDE;
            int here = y * SIDE;
            int below = ((y + 1) & (SIDE - 1)) * SIDE;
            for (int x = 0; x < SIDE; x++) {
                int left = (x + SIDE - 1) & (SIDE - 1);
                int right = (x + 1) & (SIDE - 1);
                int count = now[above + left] + now[above + x] + now[above + right]
                    + now[here + left] + now[here + right]
                    + now[below + left] + now[below + x] + now[below + right];
                next[here + x] = (byte) (count == 3 || (count == 2 && now[here + x] == 1) ? 1 : 0);
            }
        }
    }

    public static void main(String[] arguments) {
        byte[] now = new byte[SIDE * SIDE];
        byte[] next = new byte[SIDE * SIDE];
        int seed = 12_345;
        for (int i = 0; i < now.length; i++) {
            seed = seed * 1_103_515_245 + 12_345;
            now[i] = (byte) ((seed >>> 16) & 1);
        }
        for (int round = 0; round < 40; round++) {
            live(now, next);
            byte[] other = now;
            now = next;
            next = other;
        }
        int count = 0;
        for (int i = 0; i < now.length; i++) {
            count += now[i];
        }
        host.Io.write(count);
    }
}
