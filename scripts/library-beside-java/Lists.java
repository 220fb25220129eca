import java.util.ArrayDeque;
import java.util.ArrayList;
import java.util.Arrays;
import java.util.BitSet;
import java.util.Collection;
import java.util.Collections;
import java.util.Comparator;
import java.util.Deque;
import java.util.HashSet;
import java.util.Iterator;
import java.util.LinkedHashSet;
import java.util.LinkedList;
import java.util.List;
import java.util.ListIterator;
import java.util.PriorityQueue;
import java.util.Queue;
import java.util.Random;
import java.util.Scanner;
import java.util.Set;
import java.util.Stack;
import java.util.TreeSet;
import java.util.Vector;
import java.util.function.Predicate;
import java.util.function.UnaryOperator;

/** Lists, queues and sets, Collections, and BitSet. */
public class Lists {
    private static final Predicate<Integer> EVEN = new Predicate<Integer>() {
        @Override
        public boolean test(Integer i) {
            return i != null && i % 2 == 0;
        }
    };
    private static final UnaryOperator<Integer> MORE = new UnaryOperator<Integer>() {
        @Override
        public Integer apply(Integer i) {
            return i == null ? 0 : i + 1;
        }
    };
    private static final Comparator<Integer> BY_LAST = new Comparator<Integer>() {
        @Override
        public int compare(Integer a, Integer b) {
            return Integer.compare(a % 10, b % 10);
        }
    };

    static List<Integer> some(Draws d) {
        List<Integer> all = new ArrayList<>();
        for (int i = d.below(6); i > 0; i--) {
            all.add(d.below(30));
        }
        return all;
    }

    static Object change(Draws d, Collection<Integer> c, int which) {
        Integer x = d.below(30);
        switch (which) {
            case 0: case 1: case 2: return c.add(x);
            case 3: return c.addAll(some(d));
            case 4: return c.remove(x);
            case 5: return c.contains(x) + " " + c.containsAll(some(d)) + " " + c.size() + " " + c.isEmpty();
            case 6: return c.removeAll(some(d));
            case 7: return d.below(4) == 0 ? c.retainAll(Arrays.asList(1, 2, 3, 4, 5, 6, 7, 8)) : c.removeIf(EVEN);
            case 8: return Arrays.toString(c.toArray()) + Arrays.toString(c.toArray(new Integer[3])) + c.toArray(new Integer[0]).length;
            case 9: {
                StringBuilder all = new StringBuilder();
                for (Iterator<Integer> i = c.iterator(); i.hasNext();) {
                    all.append(i.next()).append(' ');
                    if (d.below(5) == 0) {
                        i.remove();
                    }
                }
                return all;
            }
            case 10: return Collections.max(c) + " " + Collections.min(c) + " " + Collections.max(c, BY_LAST) + " "
                + Collections.frequency(c, x);
            case 11: return new ArrayList<>(c) + " " + new HashSet<>(c) + new LinkedHashSet<>(c) + new TreeSet<>(c) + new LinkedList<>(c)
                + new ArrayDeque<>(c);
            case 12: return Collections.addAll(c, x, x + 1) + " " + Collections.disjoint(c, some(d))
                + Collections.unmodifiableCollection(c);
            case 13: return Collections.unmodifiableCollection(c).add(x);
            case 14: if (d.below(6) == 0) { c.clear(); } return c;
            case 15: return c instanceof ArrayDeque || c instanceof PriorityQueue ? "" : c.hashCode() + " " + c.equals(new ArrayList<>(c))
                + c.equals(new HashSet<>(c));
            default: return c.iterator().next();
        }
    }

    static Object ofList(Draws d, List<Integer> l, int which) {
        int i = d.below(l.size() + 3) - 1;
        int j = d.below(l.size() + 3) - 1;
        Integer x = d.below(30);
        switch (which) {
            case 0: return l.get(i);
            case 1: return l.set(i, x);
            case 2: l.add(i, x); return l;
            case 3: return l.remove(i);
            case 4: return l.indexOf(x) + " " + l.lastIndexOf(x);
            case 5: return l.addAll(i, some(d));
            case 6: {
                List<Integer> part = l.subList(i, j);
                part.add(x);
                part.set(0, 99);
                part.remove((Object) x);
                Collections.sort(part);
                return part + " " + part.indexOf(x) + part.size();
            }
            case 7: l.subList(i, j).clear(); return l;
            case 8: Collections.sort(l); return Collections.binarySearch(l, x);
            case 9: Collections.sort(l, d.coin() ? BY_LAST : d.coin() ? Collections.reverseOrder(BY_LAST)
                : BY_LAST.thenComparing(Comparator.<Integer>reverseOrder())); return l;
            case 10: Collections.reverse(l); Collections.rotate(l, i - 4); return l;
            case 11: Collections.swap(l, i, j); return l;
            case 12: Collections.shuffle(l, new Random(i)); return l;
            case 13: l.replaceAll(MORE); return Collections.replaceAll(l, x, 77);
            case 14: {
                StringBuilder all = new StringBuilder();
                ListIterator<Integer> w = l.listIterator(i);
                for (int k = 0; k < 8; k++) {
                    int what = d.below(6);
                    if (what < 2 && w.hasNext()) {
                        all.append(w.nextIndex()).append(':').append(w.next()).append(' ');
                    } else if (what < 4 && w.hasPrevious()) {
                        all.append(w.previousIndex()).append(';').append(w.previous()).append(' ');
                    } else if (what == 4) {
                        w.add(50 + k);
                    } else if (all.length() > 0 && what == 5) {
                        if (d.coin()) {
                            w.set(60 + k);
                        } else {
                            w.remove();
                        }
                    }
                }
                return all;
            }
            case 15: for (Integer o : l) { l.add(o); } return "all";
            case 16: return Collections.nCopies(3, x) + "" + Collections.singletonList(x) + Collections.emptyList()
                + Collections.singleton(x) + Collections.unmodifiableList(l).subList(0, 1);
            case 17: return Collections.indexOfSubList(l, l.subList(i, j)) + " " + Collections.lastIndexOfSubList(l, some(d));
            case 18: return Collections.unmodifiableList(l).set(0, x);
            case 19: return Arrays.asList(1, 2, 3).remove(0);
            case 20: return Arrays.asList(3, x, 1).indexOf(x) + " " + Arrays.asList(x).equals(Collections.singletonList(x));
            default: return l.listIterator(i).previous();
        }
    }

    static Object ofDeque(Draws d, Deque<Integer> q, int which) {
        Integer x = d.below(9) == 0 && q instanceof ArrayDeque ? null : Integer.valueOf(d.below(30));
        switch (which) {
            case 0: q.addFirst(x); return q;
            case 1: q.addLast(x); return q;
            case 2: q.push(x); return q.offerFirst(x) + " " + q.offerLast(x);
            case 3: return q.pop();
            case 4: return q.pollFirst() + " " + q.pollLast();
            case 5: return q.peekFirst() + " " + q.peekLast() + " " + q.peek();
            case 6: return q.removeFirst();
            case 7: return q.removeLast();
            case 8: return q.getFirst() + " " + q.getLast() + " " + q.element();
            case 9: return q.removeFirstOccurrence(x) + " " + q.removeLastOccurrence(x);
            default: {
                StringBuilder all = new StringBuilder();
                for (Iterator<Integer> i = d.coin() ? q.iterator() : q.descendingIterator(); i.hasNext();) {
                    all.append(i.next()).append(' ');
                    switch (d.below(24)) {
                        case 0: i.remove(); i.remove(); break;
                        case 1: q.pollFirst(); break;
                        case 2: q.pollLast(); break;
                        case 3: q.addLast(3); break;
                        case 4: case 5: case 6: case 7: i.remove(); break;
                        default: break;
                    }
                }
                return all;
            }
        }
    }

    static Object ofQueue(Draws d, Queue<Integer> q, int which) {
        switch (which) {
            case 0: case 1: return q.offer(d.below(30));
            case 2: return q.poll();
            case 3: return q.peek();
            case 4: return q.remove();
            default: return q.element();
        }
    }

    static Object ofStack(Draws d, Vector<Integer> v, int which) {
        int i = d.below(v.size() + 3) - 1;
        Stack<Integer> s = v instanceof Stack ? (Stack<Integer>) v : new Stack<Integer>();
        switch (which) {
            case 0: return s.push(i);
            case 1: return s.pop();
            case 2: return s.peek();
            case 3: return s.search(i) + " " + s.empty();
            case 4: return v.elementAt(i);
            case 5: return v.firstElement() + " " + v.lastElement();
            case 6: v.addElement(i); v.insertElementAt(i, 0); return v.removeElement(5);
            default: return v.get(i);
        }
    }

    static Object ofBits(Draws d, BitSet b, int which) {
        int i = d.below(140);
        int j = d.below(140);
        BitSet other = new BitSet();
        other.set(Math.min(i, j), Math.max(i, j));
        switch (which) {
            case 0: case 1: b.set(i); return b;
            case 2: b.clear(i); return b.get(j);
            case 3: b.flip(i); return b.cardinality() + " " + b.length() + " " + b.isEmpty();
            case 4: return b.nextSetBit(i) + " " + b.nextClearBit(i) + " " + b.previousSetBit(i) + " " + b.previousClearBit(i);
            case 5: b.set(i, j); return b;
            case 6: b.clear(i, j); return b;
            case 7: b.flip(i, j); return b;
            case 8: b.and(other); return b;
            case 9: b.or(other); return b;
            case 10: b.xor(other); return b;
            case 11: b.andNot(other); return b.intersects(other);
            case 12: return b.hashCode() + " " + b.equals(b.clone()) + b.equals(other) + b.get(Math.min(i, j), Math.max(i, j));
            case 13: b.set(-1); return b;
            default: b.set(i, d.coin()); return b;
        }
    }

    static Collection<Integer> made(int kind) {
        switch (kind) {
            case 0: return new ArrayList<>();
            case 1: return new LinkedList<>();
            case 2: return new Vector<>();
            case 3: return new Stack<>();
            case 4: return new ArrayDeque<>();
            case 5: return new PriorityQueue<>();
            case 6: return new PriorityQueue<>(5, Collections.<Integer>reverseOrder());
            case 7: return new HashSet<>();
            case 8: return new LinkedHashSet<>();
            default: return new TreeSet<>();
        }
    }

    static Object call(Draws d, Collection<Integer> c, BitSet bits) {
        int how = d.below(5);
        if (how == 0) {
            return ofBits(d, bits, d.below(15));
        }
        if (how <= 2) {
            if (c instanceof Vector && d.coin()) {
                return ofStack(d, (Vector<Integer>) c, d.below(8));
            }
            if (c instanceof Deque && d.coin()) {
                return ofDeque(d, (Deque<Integer>) c, d.below(11));
            }
            if (c instanceof List) {
                return ofList(d, (List<Integer>) c, d.below(22));
            }
            if (c instanceof Queue) {
                return ofQueue(d, (Queue<Integer>) c, d.below(6));
            }
        }
        return change(d, c, d.below(17));
    }

    public static void main(String[] args) {
        Draws d = new Draws(new Scanner(System.in).nextLong());
        for (int kind = 0; kind < 10; kind++) {
            Collection<Integer> c = made(kind);
            BitSet bits = new BitSet();
            for (int k = 0; k < 120; k++) {
                String answer;
                try {
                    answer = String.valueOf(call(d, c, bits));
                } catch (RuntimeException e) {
                    answer = Draws.told(e);
                }
                System.out.println(kind + ": " + answer + " | " + c);
                if (c.size() > 25) {
                    c.clear();
                }
            }
        }
    }
}
