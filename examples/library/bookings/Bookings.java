import java.util.Iterator;
import java.util.Map;
import java.util.NavigableMap;
import java.util.Random;
import java.util.SortedMap;
import java.util.TreeMap;
import java.util.TreeSet;

/** A room's bookings, from a minute to another: a TreeMap, the nearest entries of a key, and parts of it that write through. */
public class Bookings {
    private final NavigableMap<Integer, Integer> ends = new TreeMap<>();

    boolean book(int from, int to) {
        Map.Entry<Integer, Integer> before = ends.floorEntry(from);
        Integer behind = ends.ceilingKey(from);
        if (before != null && before.getValue() > from || behind != null && behind < to) {
            return false;
        }
        ends.put(from, to);
        return true;
    }

    private static String clock(int minutes) {
        return String.format("%02d:%02d", minutes / 60, minutes % 60);
    }

    public static void main(String[] args) {
        Bookings room = new Bookings();
        Random random = new Random(7);
        int refused = 0;
        for (int i = 0; i < 40; i++) {
            int from = 480 + 15 * random.nextInt(36);
            if (!room.book(from, from + 15 + 15 * random.nextInt(4))) {
                refused++;
            }
        }
        System.out.println(room.ends.size() + " booked, " + refused + " refused");
        for (Map.Entry<Integer, Integer> e : room.ends.entrySet()) {
            System.out.println(clock(e.getKey()) + " - " + clock(e.getValue()));
        }

        SortedMap<Integer, Integer> morning = room.ends.headMap(720);
        System.out.println("morning " + morning.size() + ", last at " + clock(morning.lastKey()));
        NavigableMap<Integer, Integer> noon = room.ends.subMap(690, true, 840, true);
        System.out.println("noon " + noon + ", backwards " + noon.descendingMap());
        noon.clear();
        System.out.println("left " + room.ends.keySet());
        try {
            noon.put(100, 200);
        } catch (IllegalArgumentException e) {
            System.out.println(e.getMessage());
        }
        for (Iterator<Integer> i = room.ends.descendingKeySet().iterator(); i.hasNext();) {
            if (i.next() % 30 != 0) {
                i.remove();
            }
        }
        System.out.println("on the half hour " + room.ends);

        TreeSet<String> names = new TreeSet<>();
        for (String name : "Otto Anna Mia Zoe Bob Eve".split(" ")) {
            names.add(name);
        }
        System.out.println(names.headSet("Mia") + " " + names.tailSet("Mia", false) + " " + names.descendingSet()
            + " " + names.lower("Eve") + " " + names.higher("Otto") + " " + names.floor("M") + " " + names.ceiling("M")
            + " " + names.pollFirst() + " " + names.pollLast() + " " + names);
    }
}
