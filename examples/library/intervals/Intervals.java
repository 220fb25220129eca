import java.util.*;

/** Stretches of numbers: joined, cut out, counted, as many as fit, and kept in a map of a tree. */
public class Intervals {
    static final class Interval {
        final int from, to;

        Interval(int from, int to) {
            if (from > to) throw new IllegalArgumentException(from + " > " + to);
            this.from = from;
            this.to = to;
        }

        boolean meets(Interval other) { return from <= other.to && other.from <= to; }

        @Override public boolean equals(Object o) {
            return o instanceof Interval && from == ((Interval) o).from && to == ((Interval) o).to;
        }
        @Override public int hashCode() { return Objects.hash(from, to); }
        @Override public String toString() { return from + ".." + to; }
    }

    static class ByStart implements Comparator<Interval> {
        static final ByStart ORDER = new ByStart();

        @Override
        public int compare(Interval a, Interval b) {
            int order = Integer.compare(a.from, b.from);
            return order != 0 ? order : Integer.compare(a.to, b.to);
        }
    }

    static class ByEnd extends ByStart {
        @Override
        public int compare(Interval a, Interval b) {
            return a.to != b.to ? a.to < b.to ? -1 : 1 : super.compare(a, b);
        }
    }

    static List<Interval> joined(Collection<Interval> all) {
        List<Interval> sorted = new ArrayList<>(all);
        sorted.sort(ByStart.ORDER);
        LinkedList<Interval> joined = new LinkedList<>();
        for (Interval it : sorted) {
            if (joined.isEmpty() || joined.getLast().to < it.from) joined.add(it);
            else joined.add(new Interval(joined.getLast().from, Math.max(joined.removeLast().to, it.to)));
        }
        return joined;
    }

    static List<Interval> without(List<Interval> all, Interval cut) {
        List<Interval> left = new ArrayList<>();
        for (Interval it : all) {
            if (!it.meets(cut)) {
                left.add(it);
                continue;
            }
            if (it.from < cut.from) left.add(new Interval(it.from, cut.from - 1));
            if (it.to > cut.to) left.add(new Interval(cut.to + 1, it.to));
        }
        return left;
    }

    /** As many as don't meet, by taking always the one that ends first. */
    static List<Interval> fitting(Interval... all) {
        Arrays.sort(all, new ByEnd());
        List<Interval> taken = new ArrayList<>();
        for (Interval it : all) if (taken.isEmpty() || !taken.get(taken.size() - 1).meets(it)) taken.add(it);
        return taken;
    }

    /** How many hold each place, as steps: from which place on there are so many. */
    static SortedMap<Integer, Integer> depths(Iterable<Interval> all) {
        TreeMap<Integer, Integer> changes = new TreeMap<>();
        for (Interval it : all) {
            changes.put(it.from, changes.getOrDefault(it.from, 0) + 1);
            changes.put(it.to + 1, changes.getOrDefault(it.to + 1, 0) - 1);
        }
        int depth = 0;
        for (Iterator<Map.Entry<Integer, Integer>> it = changes.entrySet().iterator(); it.hasNext(); ) {
            Map.Entry<Integer, Integer> step = it.next();
            if (step.getValue() == 0) {
                it.remove();
                continue;
            }
            depth += step.getValue();
            step.setValue(depth);
        }
        return changes;
    }

    /** Rooms by number: those that are taken are in a map by where they begin. */
    static class Bookings {
        private final NavigableMap<Integer, Interval> taken = new TreeMap<>();

        boolean book(int from, int to) {
            Map.Entry<Integer, Interval> before = taken.floorEntry(to);
            if (before != null && before.getValue().to >= from) return false;
            taken.put(from, new Interval(from, to));
            return true;
        }

        Interval free(int length) {
            int from = 0;
            for (Interval it : taken.values()) {
                if (it.from - from >= length) break;
                from = it.to + 1;
            }
            return new Interval(from, from + length - 1);
        }
    }

    public static void main(String[] args) {
        Scanner in = new Scanner(System.in).useDelimiter("[^0-9-]+");
        List<Interval> all = new ArrayList<>();
        while (in.hasNextInt()) {
            int from = in.nextInt(), to = in.nextInt();
            try {
                all.add(new Interval(from, to));
            } catch (IllegalArgumentException e) {
                System.out.println("left out: " + e.getMessage());
            }
        }
        System.out.println(all);
        List<Interval> joined = joined(all);
        System.out.println(joined + " " + joined.contains(new Interval(1, 9)) + " " + joined(Collections.<Interval>emptyList()));
        System.out.println(without(joined, new Interval(5, 21)) + " " + without(joined, new Interval(-100, 100)));
        System.out.println(fitting(all.toArray(new Interval[all.size()])));
        System.out.println(depths(all) + " " + depths(all).headMap(10) + " " + Collections.max(depths(all).values()));
        Bookings bookings = new Bookings();
        int[][] wanted = {{10, 20}, {15, 25}, {20, 30}, {21, 30}, {5, 9}, {0, 3}, {0, 100}, {31, 31}};
        StringBuilder answers = new StringBuilder();
        for (int[] it : wanted) answers.append(bookings.book(it[0], it[1]) ? 'y' : 'n');
        System.out.println(answers + " " + bookings.taken + " " + bookings.free(1) + " " + bookings.free(2) + " "
            + bookings.taken.higherKey(10) + " "
            + bookings.taken.descendingMap().firstEntry() + " " + bookings.taken.subMap(5, true, 21, false).keySet() + " "
            + bookings.taken.pollFirstEntry());
        Set<Interval> distinct = new LinkedHashSet<>(all);
        distinct.addAll(joined);
        System.out.println(distinct.size() + " " + new ArrayList<>(distinct).subList(4, distinct.size()));
    }
}
