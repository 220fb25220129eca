import java.util.*;

/** Dynamic programming, and Random with a seed. */
public class Tables {
    static int lcs(String a, String b) {
        int[][] dp = new int[a.length() + 1][b.length() + 1];
        for (int i = 1; i <= a.length(); i++)
            for (int j = 1; j <= b.length(); j++)
                dp[i][j] = a.charAt(i - 1) == b.charAt(j - 1) ? dp[i - 1][j - 1] + 1 : Math.max(dp[i - 1][j], dp[i][j - 1]);
        return dp[a.length()][b.length()];
    }
    static int edit(String a, String b) {
        int[] prev = new int[b.length() + 1];
        for (int j = 0; j <= b.length(); j++) prev[j] = j;
        for (int i = 1; i <= a.length(); i++) {
            int[] cur = new int[b.length() + 1];
            cur[0] = i;
            for (int j = 1; j <= b.length(); j++) {
                int c = a.charAt(i - 1) == b.charAt(j - 1) ? 0 : 1;
                cur[j] = Math.min(Math.min(cur[j - 1], prev[j]) + 1, prev[j - 1] + c);
            }
            prev = cur;
        }
        return prev[b.length()];
    }
    static int knapsack(int[] w, int[] v, int cap) {
        int[] best = new int[cap + 1];
        for (int i = 0; i < w.length; i++) for (int c = cap; c >= w[i]; c--) best[c] = Math.max(best[c], best[c - w[i]] + v[i]);
        return best[cap];
    }
    static Map<Integer, Long> memo = new HashMap<>();
    static long climb(int n) {
        if (n <= 1) return 1;
        if (memo.containsKey(n)) return memo.get(n);
        long r = climb(n - 1) + climb(n - 2);
        memo.put(n, r);
        return r;
    }
    static int lis(int[] a) {
        int[] tail = new int[a.length];
        int n = 0;
        for (int x : a) {
            int i = Arrays.binarySearch(tail, 0, n, x);
            if (i < 0) i = -(i + 1);
            tail[i] = x;
            if (i == n) n++;
        }
        return n;
    }
    public static void main(String[] args) {
        System.out.println("LCS: " + lcs("AGGTABQWERTY", "GXTXAYBWRTY"));
        System.out.println("Edit: " + edit("intention", "execution"));
        System.out.println("Knapsack: " + knapsack(new int[] {1, 3, 4, 5}, new int[] {1, 4, 5, 7}, 7));
        System.out.println("Climb: " + climb(80));
        Random rnd = new Random(12345);
        int[] a = new int[200];
        for (int i = 0; i < a.length; i++) a[i] = rnd.nextInt(1000);
        System.out.println("LIS: " + lis(a) + " of " + Arrays.toString(Arrays.copyOf(a, 10)));
        int[] b = a.clone();
        Arrays.sort(b);
        System.out.println(b[0] + " " + b[199] + " " + a[0]);
    }
}
