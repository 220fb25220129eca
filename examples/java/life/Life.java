import host.Io;

/** The game of life on a board that is joined at its edges, with a glider on it. */
public class Life {
    private static final int[][] NEIGHBOURS = {
        {-1, -1}, {-1, 0}, {-1, 1}, {0, -1}, {0, 1}, {1, -1}, {1, 0}, {1, 1},
    };
    private static final String[] START = {
        ".#......", "..#.....", "###.....", "........", "........", "........",
    };

    private boolean[][] board;
    private final byte[][] ages;
    private int generation;

    private Life(String[] rows) {
        board = new boolean[rows.length][rows[0].length()];
        ages = new byte[rows.length][];
        for (int row = 0; row < rows.length; row++) {
            ages[row] = new byte[rows[row].length()];
            for (int column = 0; column < rows[row].length(); column++) {
                board[row][column] = rows[row].charAt(column) == '#';
            }
        }
    }

    public static void main(String[] arguments) {
        Life life = new Life(START);
        life.print();
        do {
            life.advance();
        } while (life.generation < 8);
        life.print();
        Io.write('0' + life.oldest());
        Io.write('\n');
    }

    private void advance() {
        int height = board.length;
        int width = board[0].length;
        boolean[][] next = new boolean[height][width];
        for (int row = 0; row < height; row++) {
            for (int column = 0; column < width; column++) {
                int count = count(row, column);
                next[row][column] |= count == 3 || board[row][column] & count == 2;
                if (next[row][column]) {
                    ages[row][column]++;
                } else {
                    ages[row][column] = 0;
                }
            }
        }
        board = next;
        generation++;
    }

    private int count(int row, int column) {
        int count = 0;
        for (int[] neighbour : NEIGHBOURS) {
            int otherRow = (row + neighbour[0] + board.length) % board.length;
            int otherColumn = (column + neighbour[1] + board[0].length) % board[0].length;
            if (board[otherRow][otherColumn]) {
                count++;
            }
        }
        return count;
    }

    /** The greatest age of a cell; above nine it looks no further. */
    private int oldest() {
        int oldest = 0;
        rows:
        for (byte[] row : ages) {
            for (byte age : row) {
                if (age > 9) {
                    break rows;
                }
                if (age <= oldest) {
                    continue;
                }
                oldest = age;
            }
        }
        return oldest;
    }

    private void print() {
        for (boolean[] row : board) {
            for (boolean alive : row) {
                Io.write(alive ? '#' : '.');
            }
            Io.write('\n');
        }
        Io.write('\n');
    }
}
