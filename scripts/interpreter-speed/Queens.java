/** The ways to place queens, by arrays of what is attacked. */
public class Queens {
    static int placed(int row, int size, boolean[] columns, boolean[] rising, boolean[] falling) {
        if (row == size) {
            return 1;
        }
        int count = 0;
        for (int column = 0; column < size; column++) {
            int up = row + column;
            int down = row - column + size - 1;
            if (!columns[column] && !rising[up] && !falling[down]) {
                columns[column] = true;
                rising[up] = true;
                falling[down] = true;
                count += placed(row + 1, size, columns, rising, falling);
                columns[column] = false;
                rising[up] = false;
                falling[down] = false;
            }
        }
        return count;
    }

    public static void main(String[] arguments) {
        int size = 12;
        host.Io.write(placed(0, size, new boolean[size], new boolean[2 * size - 1], new boolean[2 * size - 1]));
    }
}
