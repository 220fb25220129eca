import java.util.*;
import java.util.function.*;

/** Containers of one's own on the Abstract.. classes of java.util: a list, a set of bits, a map and a queue of two stacks. */
public class Containers {
    static class Growing<E> extends AbstractList<E> implements RandomAccess {
        private Object[] items = new Object[2];
        private int count;

        Growing(Collection<? extends E> c) {
            addAll(c);
        }

        private void check(int index, int end) {
            if (index < 0 || index >= end) throw new ArrayIndexOutOfBoundsException(index);
        }

        @Override
        @SuppressWarnings("unchecked")
        public E get(int index) {
            check(index, count);
            return (E) items[index];
        }

        @Override
        public E set(int index, E e) {
            E old = get(index);
            items[index] = e;
            return old;
        }

        @Override
        public void add(int index, E e) {
            check(index, count + 1);
            if (count == items.length) items = Arrays.copyOf(items, 2 * count);
            System.arraycopy(items, index, items, index + 1, count++ - index);
            items[index] = e;
            modCount++;
        }

        @Override
        public E remove(int index) {
            E old = get(index);
            System.arraycopy(items, index + 1, items, index, --count - index);
            items[count] = null;
            modCount++;
            return old;
        }

        @Override
        public int size() {
            return count;
        }
    }

    /** A set of small letters, a bit for each. */
    static class Letters extends AbstractSet<Character> {
        private int bits;

        @Override
        public boolean add(Character c) {
            int before = bits;
            bits |= 1 << c - 'a';
            return bits != before;
        }

        @Override
        public boolean contains(Object o) {
            return (bits >>> (Character) o - 'a' & 1) == 1;
        }

        @Override
        public int size() {
            return Integer.bitCount(bits);
        }

        @Override
        public Iterator<Character> iterator() {
            return new Iterator<Character>() {
                private int left = bits;
                private int last;

                @Override
                public boolean hasNext() {
                    return left != 0;
                }

                @Override
                public Character next() {
                    if (left == 0) throw new NoSuchElementException("no letter");
                    last = Integer.lowestOneBit(left);
                    left ^= last;
                    return (char) ('a' + Integer.numberOfTrailingZeros(last));
                }

                @Override
                public void remove() {
                    bits &= ~last;
                }
            };
        }
    }

    static class Counts extends AbstractMap<String, Integer> {
        private final List<Entry<String, Integer>> entries = new ArrayList<>();

        @Override
        public Integer put(String key, Integer value) {
            for (Entry<String, Integer> e : entries) if (e.getKey().equals(key)) return e.setValue(value);
            entries.add(new SimpleEntry<>(key, value));
            return null;
        }

        @Override
        public Set<Entry<String, Integer>> entrySet() {
            return new AbstractSet<Entry<String, Integer>>() {
                @Override
                public Iterator<Entry<String, Integer>> iterator() {
                    return entries.iterator();
                }

                @Override
                public int size() {
                    return entries.size();
                }
            };
        }
    }

    static class Turned<E> extends AbstractQueue<E> {
        private final Stack<E> in = new Stack<>();
        private final Stack<E> out = new Stack<>();

        @Override
        public boolean offer(E e) {
            in.push(Objects.requireNonNull(e));
            return true;
        }

        @Override
        public E peek() {
            if (out.empty()) while (!in.empty()) out.push(in.pop());
            return out.empty() ? null : out.peek();
        }

        @Override
        public E poll() {
            return peek() == null ? null : out.pop();
        }

        @Override
        public int size() {
            return in.size() + out.size();
        }

        @Override
        public Iterator<E> iterator() {
            List<E> all = new ArrayList<>(out);
            Collections.reverse(all);
            all.addAll(in);
            return all.iterator();
        }
    }

    public static void main(String[] args) {
        List<String> list = new Growing<>(Arrays.asList("ash", "bay", "cedar", "elm", "fir"));
        list.add(3, "date");
        list.subList(1, 3).clear();
        ListIterator<String> it = list.listIterator(list.size());
        while (it.hasPrevious()) {
            String tree = it.previous();
            if (tree.equals("elm")) it.set("ELM");
            else if (tree.equals("fir")) it.add("fig");
        }
        System.out.println(list + " " + list.indexOf("fir") + list.contains("bay") + list.equals(new LinkedList<>(list)));
        Collections.sort(list, Collections.reverseOrder());
        System.out.println(list + " " + list.removeAll(Arrays.asList("fir", "oak")) + list.remove("oak") + list.remove(0) + list);
        int[] places = {2, -1};
        for (int place : places) {
            try {
                list.set(place + 1, "x");
                System.out.println(list.get(place));
            } catch (ArrayIndexOutOfBoundsException e) {
                System.out.println(e.getMessage());
            }
        }
        try {
            for (String tree : list) list.add(tree);
        } catch (ConcurrentModificationException e) {
            System.out.println("changed: " + list);
        }
        Letters letters = new Letters();
        for (char c : "programs".toCharArray()) letters.add(c);
        System.out.println(letters + " " + letters.size() + letters.remove('g') + letters.retainAll(Arrays.asList('a', 'm', 's', 'z')));
        System.out.println(letters + " " + letters.equals(new HashSet<>(Arrays.asList('s', 'm', 'a'))) + Collections.max(letters));
        Counts counts = new Counts();
        for (String word : "to be or not to be".split(" ")) {
            counts.merge(word, 1, new BinaryOperator<Integer>() {
                @Override
                public Integer apply(Integer a, Integer b) {
                    return a + b;
                }
            });
        }
        System.out.println(counts + " " + counts.get("be") + counts.get("is") + counts.containsValue(1) + counts.remove("or"));
        counts.values().removeIf(new Predicate<Integer>() {
            @Override
            public boolean test(Integer n) {
                return n > 1;
            }
        });
        System.out.println(counts + " " + counts.equals(Collections.singletonMap("not", 1)) + counts.hashCode());
        Queue<Integer> queue = new Turned<>();
        queue.addAll(Arrays.asList(1, 2, 3));
        System.out.println(queue.remove() + queue.element() + " " + queue.add(4) + queue + queue.contains(4) + queue.size());
        queue.clear();
        try {
            queue.remove();
        } catch (NoSuchElementException e) {
            System.out.println(queue.peek() + " " + e.getMessage());
        }
        throw new StringIndexOutOfBoundsException(queue.size());
    }
}
