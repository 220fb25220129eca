import java.util.ArrayList;
import java.util.Arrays;
import java.util.Collections;
import java.util.HashMap;
import java.util.List;
import java.util.Map;

/** What is solved by tables: what two texts share, edits, change, a sack, rising numbers, cuts of a rod, and ways through a grid. */
public class Subsequences {
    static String shared(String a, String b) {
        int[][] best = new int[a.length() + 1][b.length() + 1];
        for (int i = a.length() - 1; i >= 0; i--) {
            for (int j = b.length() - 1; j >= 0; j--) {
                best[i][j] = a.charAt(i) == b.charAt(j) ? best[i + 1][j + 1] + 1 : Math.max(best[i + 1][j], best[i][j + 1]);
            }
        }
        StringBuilder found = new StringBuilder();
        for (int i = 0, j = 0; i < a.length() && j < b.length(); ) {
            if (a.charAt(i) == b.charAt(j)) {
                found.append(a.charAt(i++));
                j++;
            } else if (best[i + 1][j] >= best[i][j + 1]) {
                i++;
            } else {
                j++;
            }
        }
        return found.toString();
    }

    static int edits(String a, String b) {
        int[] row = new int[b.length() + 1];
        for (int j = 0; j < row.length; j++) row[j] = j;
        for (int i = 1; i <= a.length(); i++) {
            int corner = row[0];
            row[0] = i;
            for (int j = 1; j <= b.length(); j++) {
                int above = row[j];
                int cost = a.charAt(i - 1) == b.charAt(j - 1) ? 0 : 1;
                row[j] = Math.min(Math.min(row[j - 1] + 1, above + 1), corner + cost);
                corner = above;
            }
        }
        return row[b.length()];
    }

    static List<Integer> change(int sum, int... coins) {
        int[] fewest = new int[sum + 1], last = new int[sum + 1];
        Arrays.fill(fewest, 1, sum + 1, Integer.MAX_VALUE);
        for (int s = 1; s <= sum; s++) {
            for (int coin : coins) {
                if (coin <= s && fewest[s - coin] != Integer.MAX_VALUE && fewest[s - coin] + 1 < fewest[s]) {
                    fewest[s] = fewest[s - coin] + 1;
                    last[s] = coin;
                }
            }
        }
        List<Integer> paid = new ArrayList<>();
        if (fewest[sum] == Integer.MAX_VALUE) return null;
        for (int s = sum; s > 0; s -= last[s]) paid.add(last[s]);
        Collections.sort(paid, Collections.reverseOrder());
        return paid;
    }

    static long ways(int sum, int[] coins) {
        long[] ways = new long[sum + 1];
        ways[0] = 1;
        for (int coin : coins) for (int s = coin; s <= sum; s++) ways[s] += ways[s - coin];
        return ways[sum];
    }

    static void sack(int room, String[] names, int[] weights, int[] values) {
        int n = names.length;
        int[][] best = new int[n + 1][room + 1];
        for (int i = 1; i <= n; i++) {
            for (int w = 0; w <= room; w++) {
                best[i][w] = best[i - 1][w];
                if (weights[i - 1] <= w) best[i][w] = Math.max(best[i][w], best[i - 1][w - weights[i - 1]] + values[i - 1]);
            }
        }
        List<String> taken = new ArrayList<>();
        for (int i = n, w = room; i > 0; i--) {
            if (best[i][w] != best[i - 1][w]) {
                taken.add(0, names[i - 1]);
                w -= weights[i - 1];
            }
        }
        System.out.println("sack of " + room + ": " + best[n][room] + " by " + taken);
    }

    static int[] rising(int[] a) {
        int[] length = new int[a.length], before = new int[a.length];
        int end = -1;
        for (int i = 0; i < a.length; i++) {
            length[i] = 1;
            before[i] = -1;
            for (int j = 0; j < i; j++) {
                if (a[j] < a[i] && length[j] + 1 > length[i]) {
                    length[i] = length[j] + 1;
                    before[i] = j;
                }
            }
            if (end < 0 || length[i] > length[end]) end = i;
        }
        int[] found = new int[end < 0 ? 0 : length[end]];
        for (int k = found.length - 1; k >= 0; k--, end = before[end]) found[k] = a[end];
        return found;
    }

    static final Map<String, Long> KNOWN = new HashMap<>();

    static long paths(int rows, int columns) {
        if (rows == 0 || columns == 0) return 1;
        String key = rows + "," + columns;
        Long known = KNOWN.get(key);
        if (known != null) return known;
        long found = paths(rows - 1, columns) + paths(rows, columns - 1);
        KNOWN.put(key, found);
        return found;
    }

    static long most(int... numbers) {
        long best = Long.MIN_VALUE, here = 0;
        for (int x : numbers) {
            here = Math.max(x, here + x);
            best = Math.max(best, here);
        }
        return best;
    }

    public static void main(String[] args) {
        System.out.println(shared("programming language", "a growing mirage"));
        System.out.println(shared("abc", "xyz").isEmpty());
        String[][] pairs = {{"kitten", "sitting"}, {"", "abc"}, {"sunday", "saturday"}, {"same", "same"}};
        for (String[] pair : pairs) System.out.println(pair[0] + " to " + pair[1] + ": " + edits(pair[0], pair[1]));
        System.out.println(change(63, 1, 5, 10, 21, 25) + " " + change(7, 4, 6) + " " + change(0, 2));
        System.out.println(ways(100, new int[] {1, 2, 5, 10, 20, 50, 100}));
        sack(10, new String[] {"lamp", "rope", "tent", "stove", "book"}, new int[] {2, 3, 6, 4, 1}, new int[] {6, 5, 13, 8, 2});
        System.out.println(Arrays.toString(rising(new int[] {10, 9, 2, 5, 3, 7, 101, 18, 4, 20, 19})));
        System.out.println(Arrays.toString(rising(new int[0])));
        System.out.println(paths(16, 16) + " with " + KNOWN.size() + " known");
        System.out.println(most(-2, 1, -3, 4, -1, 2, 1, -5, 4) + " " + most(-3, -1, -2));
    }
}
