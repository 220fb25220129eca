import java.util.*;

/** What iterators say where they are asked at a wrong time, or where a collection changes below them. */
public class Walks {
    static String ends(Iterator<?> it) {
        StringBuilder said = new StringBuilder();
        try {
            it.remove();
        } catch (RuntimeException e) {
            said.append(e.getClass().getSimpleName()).append(' ');
        }
        try {
            it.next();
            it.remove();
            it.remove();
        } catch (RuntimeException e) {
            said.append(e.getClass().getSimpleName()).append(' ');
        }
        try {
            while (true) said.append(it.next()).append(',');
        } catch (NoSuchElementException e) {
            return said.append("end").toString();
        }
    }

    static String changed(Collection<Integer> c) {
        StringBuilder said = new StringBuilder();
        try {
            for (Integer i : c) {
                said.append(i).append(' ');
                if (i == 10) c.add(60);
                if (i == 20) c.remove(20);
            }
        } catch (ConcurrentModificationException e) {
            said.append("changed ");
        }
        return said.append(c).toString();
    }

    static <C extends Collection<Integer>> C filled(C c) {
        Collections.addAll(c, 10, 20, 30, 40, 50);
        return c;
    }

    /** Takes from both ends and from within, as a queue of jobs does. */
    static String jobs(Random random) {
        ArrayDeque<Integer> jobs = new ArrayDeque<>();
        StringBuilder sizes = new StringBuilder();
        for (int i = 0; i < 300; i++) {
            if (random.nextInt(3) > 0) {
                jobs.addLast(i);
            } else if (random.nextBoolean()) {
                jobs.addFirst(-i);
            } else {
                Iterator<Integer> it = random.nextBoolean() ? jobs.iterator() : jobs.descendingIterator();
                while (it.hasNext()) {
                    if (it.next() % 5 == random.nextInt(5)) it.remove();
                }
            }
            if (i % 60 == 59) sizes.append(jobs.size()).append(' ');
        }
        return sizes + "" + jobs;
    }

    public static void main(String[] args) {
        List<Collection<Integer>> all = new ArrayList<>();
        for (int round = 0; round < 2; round++) {
            all.add(filled(new ArrayList<Integer>()));
            all.add(filled(new LinkedList<Integer>()));
            all.add(filled(new Vector<Integer>()));
            all.add(filled(new ArrayDeque<Integer>()));
            all.add(filled(new PriorityQueue<Integer>()));
            all.add(filled(new HashSet<Integer>()));
            all.add(filled(new LinkedHashSet<Integer>()));
            all.add(filled(new TreeSet<Integer>(Collections.reverseOrder())));
        }
        for (int i = 0; i < 8; i++) System.out.println(ends(all.get(i).iterator()) + " " + all.get(i));
        for (int i = 8; i < 16; i++) System.out.println(changed(all.get(i)));
        System.out.println(ends(filled(new ArrayDeque<Integer>()).descendingIterator()));
        System.out.println(ends(filled(new LinkedList<Integer>()).descendingIterator()));
        ArrayDeque<Integer> queue = filled(new ArrayDeque<Integer>(5));
        Iterator<Integer> it = queue.iterator();
        System.out.print(it.next() + queue.pollFirst() + it.next() + " ");
        queue.pollLast();
        System.out.print(it.next() + it.next() + " ");
        try {
            it.next();
        } catch (ConcurrentModificationException e) {
            System.out.println(queue);
        }
        System.out.println(jobs(new Random(8)));
        for (Integer i : queue) queue.removeFirstOccurrence(i);
    }
}
