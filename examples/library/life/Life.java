import java.io.BufferedReader;
import java.io.IOException;
import java.io.InputStreamReader;
import java.util.ArrayList;
import java.util.HashMap;
import java.util.HashSet;
import java.util.List;
import java.util.Map;
import java.util.Set;

/** Conway's game of life on a board without an edge, as a set of cells, until it stands still, comes back or is over. */
public class Life {
    static final class Cell {
        final int row, column;

        Cell(int row, int column) {
            this.row = row;
            this.column = column;
        }

        @Override
        public boolean equals(Object other) {
            return other instanceof Cell && ((Cell) other).row == row && ((Cell) other).column == column;
        }

        @Override
        public int hashCode() {
            return 31 * row + column;
        }
    }

    static Set<Cell> next(Set<Cell> alive) {
        Map<Cell, Integer> neighbours = new HashMap<>();
        for (Cell it : alive) {
            for (int down = -1; down <= 1; down++) {
                for (int right = -1; right <= 1; right++) {
                    if (down == 0 && right == 0) continue;
                    Cell near = new Cell(it.row + down, it.column + right);
                    Integer count = neighbours.get(near);
                    neighbours.put(near, count == null ? 1 : count + 1);
                }
            }
        }
        Set<Cell> born = new HashSet<>();
        for (Map.Entry<Cell, Integer> it : neighbours.entrySet()) {
            if (it.getValue() == 3 || it.getValue() == 2 && alive.contains(it.getKey())) born.add(it.getKey());
        }
        return born;
    }

    static String shown(Set<Cell> alive) {
        int top = Integer.MAX_VALUE, left = Integer.MAX_VALUE, bottom = Integer.MIN_VALUE, right = Integer.MIN_VALUE;
        for (Cell it : alive) {
            top = Math.min(top, it.row);
            bottom = Math.max(bottom, it.row);
            left = Math.min(left, it.column);
            right = Math.max(right, it.column);
        }
        StringBuilder text = new StringBuilder();
        for (int row = top; row <= bottom; row++) {
            for (int column = left; column <= right; column++) text.append(alive.contains(new Cell(row, column)) ? '#' : '.');
            text.append('\n');
        }
        return text.toString();
    }

    public static void main(String[] args) throws IOException {
        BufferedReader in = new BufferedReader(new InputStreamReader(System.in));
        String name;
        while ((name = in.readLine()) != null) {
            Set<Cell> alive = new HashSet<>();
            String line;
            for (int row = 0; (line = in.readLine()) != null && !line.isEmpty(); row++) {
                for (int column = 0; column < line.length(); column++) if (line.charAt(column) == '#') alive.add(new Cell(row, column));
            }
            List<Set<Cell>> history = new ArrayList<>();
            int before = -1;
            while (history.size() < 8 && !alive.isEmpty() && (before = history.indexOf(alive)) < 0) {
                history.add(alive);
                alive = next(alive);
            }
            String end = alive.isEmpty() ? "is over" : before < 0 ? "goes on" : before == history.size() - 1 ? "stands still"
                : "comes back to " + before;
            System.out.println(name + ": after " + history.size() + " it " + end + " with " + alive.size());
            System.out.print(alive.isEmpty() ? "" : shown(alive));
        }
    }
}
