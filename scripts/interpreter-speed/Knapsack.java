/** The best value of a knapsack, from one array of ints to another. */
public class Knapsack {
    public static void main(String[] arguments) {
        int capacity = 20_000;
        int[] before = new int[capacity + 1];
        int[] after = new int[capacity + 1];
        for (int item = 1; item <= 1_200; item++) {
            int weight = 17 + item * 37 % 211;
            int value = 5 + item * 53 % 307;
            for (int room = 0; room <= capacity; room++) {
                int best = before[room];
                if (room >= weight && before[room - weight] + value > best) {
                    best = before[room - weight] + value;
                }
                after[room] = best;
            }
            int[] other = before;
            before = after;
            after = other;
        }
        host.Io.write(before[capacity]);
    }
}
