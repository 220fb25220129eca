/** Products of matrices of ints. */
public class Matrices {
    static int[][] filled(int size, int seed) {
        int[][] rows = new int[size][size];
        for (int i = 0; i < size; i++) {
            for (int k = 0; k < size; k++) {
                rows[i][k] = (i * 31 + k * 17 + seed) % 101;
            }
        }
        return rows;
    }

    static void multiply(int[][] left, int[][] right, int[][] product) {
        int size = left.length;
        for (int i = 0; i < size; i++) {
            for (int k = 0; k < size; k++) {
                int sum = 0;
                for (int j = 0; j < size; j++) {
                    sum += left[i][j] * right[j][k];
                }
                product[i][k] = sum;
            }
        }
    }

    public static void main(String[] arguments) {
        int[][] left = filled(160, 1);
        int[][] right = filled(160, 2);
        int[][] product = new int[160][160];
        int sum = 0;
        for (int round = 0; round < 8; round++) {
            multiply(left, right, product);
            sum = sum * 31 + product[round][159 - round];
            left[round][round] = sum & 63;
        }
        host.Io.write(sum);
    }
}
