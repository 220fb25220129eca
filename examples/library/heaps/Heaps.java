import java.util.*;

/** Queues by urgency: a heap of one's own, the library's, the largest few, many lists as one, and a middle that is always known. */
public class Heaps {
    static class Heap<T> {
        private Object[] items = new Object[2];
        private int size;
        private final Comparator<? super T> order;

        Heap(Comparator<? super T> order) {
            this.order = order;
        }

        @SuppressWarnings("unchecked")
        private T at(int index) {
            return (T) items[index];
        }

        void add(T item) {
            if (size == items.length) items = Arrays.copyOf(items, 2 * size);
            int at = size++;
            while (at > 0 && order.compare(item, at((at - 1) / 2)) < 0) {
                items[at] = items[(at - 1) / 2];
                at = (at - 1) / 2;
            }
            items[at] = item;
        }

        T peek() {
            if (size == 0) throw new NoSuchElementException("the heap is empty");
            return at(0);
        }

        T remove() {
            T first = peek(), item = at(--size);
            items[size] = null;
            int at = 0;
            while (2 * at + 1 < size) {
                int child = 2 * at + 1;
                if (child + 1 < size && order.compare(at(child + 1), at(child)) < 0) child++;
                if (order.compare(item, at(child)) <= 0) break;
                items[at] = items[child];
                at = child;
            }
            if (size > 0) items[at] = item;
            return first;
        }

        boolean isEmpty() {
            return size == 0;
        }
    }

    static class Task implements Comparable<Task> {
        final String name;
        final int urgency;
        final long due;

        Task(String name, int urgency, long due) {
            this.name = name;
            this.urgency = urgency;
            this.due = due;
        }

        @Override
        public int compareTo(Task other) {
            if (urgency != other.urgency) return Integer.compare(other.urgency, urgency);
            if (due != other.due) return due < other.due ? -1 : 1;
            return name.compareTo(other.name);
        }

        @Override
        public String toString() {
            return name + "!" + urgency;
        }
    }

    static List<Integer> largest(int count, int... numbers) {
        PriorityQueue<Integer> kept = new PriorityQueue<>();
        for (int n : numbers) {
            kept.offer(n);
            if (kept.size() > count) kept.poll();
        }
        List<Integer> found = new LinkedList<>();
        while (!kept.isEmpty()) found.add(0, kept.poll());
        return found;
    }

    static List<Integer> merged(List<List<Integer>> lists) {
        PriorityQueue<int[]> heads = new PriorityQueue<>(4, new Comparator<int[]>() {
            @Override
            public int compare(int[] a, int[] b) {
                return lists.get(a[0]).get(a[1]) - lists.get(b[0]).get(b[1]);
            }
        });
        for (int i = 0; i < lists.size(); i++) if (!lists.get(i).isEmpty()) heads.add(new int[] {i, 0});
        List<Integer> all = new ArrayList<>();
        while (!heads.isEmpty()) {
            int[] head = heads.remove();
            all.add(lists.get(head[0]).get(head[1]));
            if (++head[1] < lists.get(head[0]).size()) heads.add(head);
        }
        return all;
    }

    /** Twice the middle of the numbers so far. */
    static class Middle {
        private final PriorityQueue<Integer> low = new PriorityQueue<>(Collections.<Integer>reverseOrder()), high = new PriorityQueue<>();

        int add(int n) {
            if (low.isEmpty() || n <= low.peek()) low.add(n); else high.add(n);
            if (low.size() > high.size() + 1) high.add(low.remove());
            if (high.size() > low.size()) low.add(high.remove());
            return low.size() > high.size() ? 2 * low.peek() : low.peek() + high.peek();
        }
    }

    public static void main(String[] args) {
        Heap<String> byLength = new Heap<>(new Comparator<String>() {
            @Override
            public int compare(String a, String b) {
                return a.length() == b.length() ? a.compareTo(b) : Integer.compare(a.length(), b.length());
            }
        });
        for (String word : "when shall we three meet again in thunder lightning or in rain".split(" ")) byLength.add(word);
        StringJoiner words = new StringJoiner(" ", "<", ">");
        while (!byLength.isEmpty()) words.add(byLength.remove());
        System.out.println(words + " " + words.length());
        try {
            byLength.peek();
        } catch (NoSuchElementException e) {
            System.out.println(e.getMessage());
        }
        Queue<Task> tasks = new PriorityQueue<>(Arrays.asList(new Task("wash", 1, 20), new Task("cook", 3, 10), new Task("call", 3, 5),
            new Task("read", 0, 1)));
        tasks.add(new Task("bake", 3, 10));
        System.out.print(tasks.peek() + " of " + tasks.size() + ":");
        for (int time = 0; !tasks.isEmpty(); time += 7) {
            Task task = tasks.poll();
            System.out.print(" " + task + (time > task.due ? " late by " + (time - task.due) : ""));
            if (task.urgency == 1) tasks.add(new Task("iron", 2, time));
        }
        System.out.println(" " + tasks.poll() + " " + tasks.peek());
        System.out.println(largest(3, 5, 9, 1, 9, 7, 3) + " " + largest(2) + " " + largest(9, 2, 1));
        List<List<Integer>> lists = Arrays.asList(Arrays.asList(1, 4, 9), Collections.<Integer>emptyList(), Arrays.asList(2, 4, 8, 16),
            Arrays.asList(3));
        System.out.println(merged(lists));
        Middle middle = new Middle();
        for (int n : new int[] {5, 15, 1, 3, 8, 7, 9, 2}) {
            int twice = middle.add(n);
            System.out.print(twice / 2 + (twice % 2 == 0 ? "" : ".5") + " ");
        }
        System.out.println();
        PriorityQueue<Character> letters = new PriorityQueue<>();
        for (char c : "priority".toCharArray()) letters.add(c);
        System.out.println(letters + " " + letters.contains('y') + " " + letters.remove('i') + " " + letters);
        Map<Integer, Queue<String>> waiting = new TreeMap<>(Collections.reverseOrder());
        String[] people = {"3 Ann", "1 Bob", "3 Cid", "2 Dee", "1 Eve"};
        for (String person : people) {
            int level = person.charAt(0) - '0';
            if (waiting.get(level) == null) waiting.put(level, new ArrayDeque<String>());
            waiting.get(level).add(person.substring(2));
        }
        for (Map.Entry<Integer, Queue<String>> it : waiting.entrySet()) {
            while (!it.getValue().isEmpty()) System.out.print(it.getKey() + it.getValue().remove() + " ");
        }
        System.out.println(waiting);
    }
}
