import java.util.*;
import java.util.function.*;

/** Players in orders: those that are put together, one that calls no two equal, and how often each compares. */
public class Ranking {
    static final class Player {
        final String name;
        final int points;

        Player(String name, int points) {
            this.name = name;
            this.points = points;
        }

        @Override public String toString() { return name + points; }
    }

    /** Counts what another one is asked. */
    static final class Counting<T> implements Comparator<T> {
        private final Comparator<T> of;
        private int count;

        Counting(Comparator<T> of) { this.of = of; }

        @Override
        public int compare(T a, T b) {
            count++;
            return of.compare(a, b);
        }
    }

    static final Comparator<Player> BY_POINTS = new Comparator<Player>() {
        @Override public int compare(Player a, Player b) { return Integer.compare(b.points, a.points); }
    };
    static final Comparator<Player> NEVER_EQUAL = new Comparator<Player>() {
        @Override public int compare(Player a, Player b) { return a.points < b.points ? 1 : -1; }
    };
    static final Comparator<Player> AT_RANDOM = new Comparator<Player>() {
        private final Random random = new Random(8);
        @Override public int compare(Player a, Player b) { return random.nextBoolean() ? 1 : -1; }
    };

    static List<Player> players(int count, int kinds) {
        Random random = new Random(count);
        List<Player> all = new ArrayList<>();
        for (int i = 0; i < count; i++) {
            all.add(new Player(String.valueOf((char) ('a' + i % 26)), random.nextInt(kinds)));
        }
        return all;
    }

    static void rank(String how, List<Player> players, Comparator<Player> order) {
        Counting<Player> counting = new Counting<>(order);
        try {
            Collections.sort(players, counting);
        } catch (IllegalArgumentException e) {
            System.out.print(e.getMessage() + " ");
        }
        int shown = Math.min(players.size(), 12);
        System.out.println(how + " " + players.size() + ", compared " + counting.count + ": " + players.subList(0, shown));
    }

    public static void main(String[] args) {
        for (int count : new int[] {1, 5, 20, 31, 32, 100, 700}) {
            rank("points", players(count, 6), BY_POINTS);
            rank("never equal", players(count, 6), NEVER_EQUAL);
        }
        List<Player> sorted = players(200, 1000);
        Collections.sort(sorted, BY_POINTS);
        rank("again", sorted, BY_POINTS);
        rank("turned", sorted, BY_POINTS.reversed());
        sorted.add(new Player("late", 500));
        rank("with one more", sorted, BY_POINTS.reversed());
        List<Player> halves = new ArrayList<>(sorted.subList(100, 201));
        halves.addAll(sorted.subList(0, 100));
        rank("halves", halves, BY_POINTS.reversed());
        rank("at random", players(300, 9), AT_RANDOM);
        BinaryOperator<Player> better = BinaryOperator.minBy(BY_POINTS);
        Player best = null;
        for (Player p : players(9, 50)) {
            best = best == null ? p : better.apply(best, p);
        }
        BiFunction<Player, Player, Integer> gap = new BiFunction<Player, Player, Integer>() {
            @Override public Integer apply(Player a, Player b) { return a.points - b.points; }
        };
        Function<Integer, String> told = new Function<Integer, String>() {
            @Override public String apply(Integer n) { return n > 0 ? "ahead by " + n : n < 0 ? "behind by " + -n : "level"; }
        };
        System.out.println(best + " " + gap.andThen(told).apply(best, new Player("x", 40)) + UnaryOperator.<String>identity().apply("."));
    }
}
