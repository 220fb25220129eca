import java.util.Scanner;

/** Sums of lists of numbers that Scanner reads. */
public class Sums {
    public static void main(String[] args) {
        Scanner sc = new Scanner(System.in);
        int t = sc.nextInt();
        while (t-- > 0) {
            int n = sc.nextInt();
            long sum = 0;
            int max = Integer.MIN_VALUE;
            for (int i = 0; i < n; i++) {
                int x = sc.nextInt();
                sum += x;
                max = Math.max(max, x);
            }
            System.out.println("sum=" + sum + " max=" + max);
        }
    }
}
