import java.io.BufferedReader;
import java.io.IOException;
import java.io.InputStreamReader;

/** Sudokus are read, solved by what is certain and then by trying, and printed. */
public class Sudoku {
    private final int[][] cells = new int[9][9];
    private final int[] rows = new int[9], columns = new int[9], boxes = new int[9];
    private int tried;

    static class ContradictionException extends RuntimeException {
        ContradictionException(int row, int column, int digit) {
            super("row " + (row + 1) + ", column " + (column + 1) + ": " + digit + " stands there already");
        }
    }

    void put(int row, int column, int digit) {
        int bit = 1 << digit;
        if (((rows[row] | columns[column] | boxes[row / 3 * 3 + column / 3]) & bit) != 0) {
            throw new ContradictionException(row, column, digit);
        }
        cells[row][column] = digit;
        rows[row] |= bit;
        columns[column] |= bit;
        boxes[row / 3 * 3 + column / 3] |= bit;
    }

    private void take(int row, int column) {
        int bit = ~(1 << cells[row][column]);
        cells[row][column] = 0;
        rows[row] &= bit;
        columns[column] &= bit;
        boxes[row / 3 * 3 + column / 3] &= bit;
    }

    private int free(int row, int column) {
        return ~(rows[row] | columns[column] | boxes[row / 3 * 3 + column / 3]) & 0x3FE;
    }

    boolean solve() {
        int bestRow = -1, bestColumn = -1, fewest = 10;
        search:
        for (int row = 0; row < 9; row++) {
            for (int column = 0; column < 9; column++) {
                if (cells[row][column] != 0) continue;
                int count = Integer.bitCount(free(row, column));
                if (count >= fewest) continue;
                fewest = count;
                bestRow = row;
                bestColumn = column;
                if (count <= 1) break search;
            }
        }
        if (bestRow < 0) return true;
        int free = free(bestRow, bestColumn);
        while (free != 0) {
            int digit = Integer.numberOfTrailingZeros(free);
            free &= free - 1;
            put(bestRow, bestColumn, digit);
            tried++;
            if (solve()) return true;
            take(bestRow, bestColumn);
        }
        return false;
    }

    @Override
    public String toString() {
        StringBuilder text = new StringBuilder();
        for (int row = 0; row < 9; row++) {
            if (row == 3 || row == 6) text.append("------+-------+------\n");
            for (int column = 0; column < 9; column++) {
                if (column == 3 || column == 6) text.append("| ");
                text.append(cells[row][column] == 0 ? "." : String.valueOf(cells[row][column])).append(column == 8 ? '\n' : ' ');
            }
        }
        return text.toString();
    }

    public static void main(String[] args) throws IOException {
        BufferedReader in = new BufferedReader(new InputStreamReader(System.in));
        String name;
        while ((name = in.readLine()) != null) {
            Sudoku sudoku = new Sudoku();
            int given = 0;
            try {
                for (int row = 0; row < 9; row++) {
                    String line = in.readLine();
                    for (int column = 0; column < 9; column++) {
                        int digit = Character.digit(line.charAt(column), 10);
                        if (digit <= 0) continue;
                        sudoku.put(row, column, digit);
                        given++;
                    }
                }
            } catch (ContradictionException e) {
                System.out.println(name + ": " + e.getMessage());
                break;
            }
            boolean isSolved = sudoku.solve();
            System.out.println(name + ", " + given + " given, " + sudoku.tried + " tried: " + (isSolved ? "solved" : "there is no way"));
            System.out.print(isSolved ? sudoku : "");
        }
    }
}
