import java.util.Arrays;
import java.util.BitSet;
import java.util.Iterator;
import java.util.NoSuchElementException;

/** Queens on a board that threaten none of the others: an iterator over the solutions, which looks for each when it is asked for. */
public class Queens implements Iterable<int[]> {
    private final int size;

    Queens(int size) {
        if (size <= 0) {
            throw new IllegalArgumentException("no board of " + size);
        }
        this.size = size;
    }

    @Override
    public Iterator<int[]> iterator() {
        return new Search();
    }

    private class Search implements Iterator<int[]> {
        private final int[] columns = new int[size];
        private final BitSet taken = new BitSet();
        private final BitSet rising = new BitSet();
        private final BitSet falling = new BitSet();
        private int row;
        private boolean found;

        Search() {
            Arrays.fill(columns, -1);
        }

        private void mark(boolean value) {
            taken.set(columns[row], value);
            rising.set(row + columns[row], value);
            falling.set(row - columns[row] + size, value);
        }

        private boolean isFree(int column) {
            return !taken.get(column) && !rising.get(row + column) && !falling.get(row - column + size);
        }

        private void back() {
            columns[row] = -1;
            row--;
            if (row >= 0) {
                mark(false);
            }
        }

        @Override
        public boolean hasNext() {
            while (!found && row >= 0) {
                if (row == size) {
                    found = true;
                } else {
                    int column = columns[row] + 1;
                    while (column < size && !isFree(column)) {
                        column++;
                    }
                    if (column == size) {
                        back();
                    } else {
                        columns[row] = column;
                        mark(true);
                        row++;
                    }
                }
            }
            return found;
        }

        @Override
        public int[] next() {
            if (!hasNext()) {
                throw new NoSuchElementException();
            }
            int[] solution = columns.clone();
            found = false;
            row--;
            mark(false);
            return solution;
        }
    }

    public static void main(String[] args) {
        for (int size = 1; size <= 7; size++) {
            int count = 0;
            int[] first = null;
            for (int[] solution : new Queens(size)) {
                count++;
                if (first == null) {
                    first = solution;
                }
            }
            System.out.println(size + ": " + count + " " + Arrays.toString(first));
        }
        char[][] board = new char[6][6];
        for (char[] row : board) {
            Arrays.fill(row, '.');
        }
        int[] solution = new Queens(6).iterator().next();
        for (int row = 0; row < 6; row++) {
            board[row][solution[row]] = 'Q';
            System.out.println(new String(board[row]));
        }
        try {
            new Queens(0);
        } catch (IllegalArgumentException e) {
            System.out.println(e.getMessage());
        }
        Iterator<int[]> none = new Queens(3).iterator();
        System.out.println(none.hasNext());
        none.next();
    }
}
