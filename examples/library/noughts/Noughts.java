import java.util.*;

/** Noughts and crosses: all positions are looked at, each once, and two players play from what the input begins with. */
public class Noughts {
    static final int[][] LINES = {{0, 1, 2}, {3, 4, 5}, {6, 7, 8}, {0, 3, 6}, {1, 4, 7}, {2, 5, 8}, {0, 4, 8}, {2, 4, 6}};
    static final Map<String, Integer> KNOWN = new HashMap<>();

    static class Board {
        private final char[] cells;

        Board(String text) {
            if (!text.matches("[xo.]{9}")) throw new IllegalArgumentException("no board: " + text);
            cells = text.toCharArray();
        }

        char winner() {
            for (int[] line : LINES) {
                char c = cells[line[0]];
                if (c != '.' && c == cells[line[1]] && c == cells[line[2]]) return c;
            }
            return '.';
        }

        char turn() {
            int crosses = 0, noughts = 0;
            for (char c : cells) {
                crosses += c == 'x' ? 1 : 0;
                noughts += c == 'o' ? 1 : 0;
            }
            if (crosses != noughts && crosses != noughts + 1) {
                throw new IllegalStateException(crosses + " crosses and " + noughts + " noughts");
            }
            return crosses == noughts ? 'x' : 'o';
        }

        List<Integer> moves() {
            List<Integer> free = new ArrayList<>();
            for (int i = 0; i < 9; i++) if (cells[i] == '.') free.add(i);
            return free;
        }

        /** What the one whose turn it is can reach: 1, 0 or -1. */
        int worth() {
            char winner = winner();
            if (winner != '.') return winner == turn() ? 1 : -1;
            String key = new String(cells);
            Integer known = KNOWN.get(key);
            if (known != null) return known;
            int best = moves().isEmpty() ? 0 : -1;
            char turn = turn();
            for (int move : moves()) {
                cells[move] = turn;
                best = Math.max(best, -worth());
                cells[move] = '.';
                if (best == 1) break;
            }
            KNOWN.put(key, best);
            return best;
        }

        int best() {
            int wanted = worth(), found = -1;
            char turn = turn();
            for (int move : moves()) {
                cells[move] = turn;
                if (found < 0 && -worth() == wanted) found = move;
                cells[move] = '.';
            }
            return found;
        }

        @Override
        public String toString() {
            return String.format("%s/%s/%s", new String(cells, 0, 3), String.valueOf(cells, 3, 3), String.copyValueOf(cells, 6, 3));
        }
    }

    public static void main(String[] args) {
        Scanner in = new Scanner(System.in);
        while (in.hasNextLine()) {
            String line = in.nextLine().trim();
            try {
                Board board = new Board(line);
                List<String> way = new ArrayList<>();
                way.add(board.toString());
                String hope = board.worth() == 0 ? "nobody has to lose" : (board.worth() > 0) == (board.turn() == 'x') ? "x can win"
                    : "o can win";
                while (board.winner() == '.' && !board.moves().isEmpty()) {
                    char turn = board.turn();
                    board.cells[board.best()] = turn;
                    way.add(board.toString());
                }
                System.out.println(hope + ": " + String.join(" ", way) + " "
                    + (board.winner() == '.' ? "drawn" : board.winner() + " wins"));
            } catch (IllegalArgumentException | IllegalStateException e) {
                System.out.println(e.getMessage());
            }
        }
        System.out.println(KNOWN.size() + " positions");
    }
}
