package java.util;

import java.util.function.Predicate;

public class PriorityQueue<E> extends AbstractQueue<E> implements java.io.Serializable {
    private Object[] heap;
    private int count;
    private int changes;
    private final Comparator<? super E> order;

    public PriorityQueue() {
        this(11, null);
    }

    public PriorityQueue(int capacity) {
        this(capacity, null);
    }

    public PriorityQueue(Comparator<? super E> order) {
        this(11, order);
    }

    public PriorityQueue(int capacity, Comparator<? super E> order) {
        if (capacity < 1) {
            throw new IllegalArgumentException();
        }
        heap = new Object[capacity];
        this.order = order;
    }

    public PriorityQueue(Collection<? extends E> c) {
        heap = c.toArray();
        count = heap.length;
        order = null;
        arrange();
    }

    private void arrange() {
        for (int i = (count >>> 1) - 1; i >= 0; i--) {
            down(i, heap[i]);
        }
    }

    private boolean less(Object a, Object b) {
        if (order == null) {
            return ((Comparable<Object>) a).compareTo(b) < 0;
        }
        return order.compare((E) a, (E) b) < 0;
    }

    private void up(int from, Object e) {
        int at = from;
        while (at > 0) {
            int parent = at - 1 >>> 1;
            if (!less(e, heap[parent])) {
                break;
            }
            heap[at] = heap[parent];
            at = parent;
        }
        heap[at] = e;
    }

    private void down(int from, Object e) {
        int at = from;
        int half = count >>> 1;
        while (at < half) {
            int child = 2 * at + 1;
            if (child + 1 < count && less(heap[child + 1], heap[child])) {
                child++;
            }
            if (!less(heap[child], e)) {
                break;
            }
            heap[at] = heap[child];
            at = child;
        }
        heap[at] = e;
    }

    public int size() {
        return count;
    }

    public boolean add(E e) {
        return offer(e);
    }

    public boolean offer(E e) {
        if (e == null) {
            throw new NullPointerException();
        }
        if (count == heap.length) {
            heap = Arrays.copyOf(heap, count < 64 ? 2 * count + 2 : count + (count >> 1));
        }
        count++;
        changes++;
        up(count - 1, e);
        return true;
    }

    public E peek() {
        return count == 0 ? null : (E) heap[0];
    }

    public E poll() {
        if (count == 0) {
            return null;
        }
        E top = (E) heap[0];
        count--;
        changes++;
        Object last = heap[count];
        heap[count] = null;
        if (count > 0) {
            down(0, last);
        }
        return top;
    }

    private int place(Object o) {
        for (int i = 0; i < count; i++) {
            if (heap[i].equals(o)) {
                return i;
            }
        }
        return -1;
    }

    public boolean contains(Object o) {
        return place(o) >= 0;
    }

    public boolean remove(Object o) {
        int at = place(o);
        if (at < 0) {
            return false;
        }
        removeAt(at);
        changes++;
        return true;
    }

    /** Answers the element that has moved from behind a place to before it, or null. */
    private Object removeAt(int at) {
        count--;
        Object moved = heap[count];
        heap[count] = null;
        if (at == count) {
            return null;
        }
        down(at, moved);
        if (heap[at] != moved) {
            return null;
        }
        up(at, moved);
        return heap[at] == moved ? null : moved;
    }

    public boolean removeIf(Predicate<? super E> test) {
        int left = 0;
        for (int i = 0; i < count; i++) {
            if (!test.test((E) heap[i])) {
                heap[left] = heap[i];
                left++;
            }
        }
        boolean changed = left < count;
        for (int i = left; i < count; i++) {
            heap[i] = null;
        }
        count = left;
        if (changed) {
            changes++;
            arrange();
        }
        return changed;
    }

    private boolean keep(final Collection<?> c, final boolean those) {
        return removeIf(new Predicate<E>() {
            public boolean test(E e) {
                return c.contains(e) != those;
            }
        });
    }

    public boolean removeAll(Collection<?> c) {
        return keep(Objects.requireNonNull(c), false);
    }

    public boolean retainAll(Collection<?> c) {
        return keep(Objects.requireNonNull(c), true);
    }

    public void clear() {
        for (int i = 0; i < count; i++) {
            heap[i] = null;
        }
        count = 0;
    }

    public Comparator<? super E> comparator() {
        return order;
    }

    public Iterator<E> iterator() {
        return new Walk();
    }

    private final class Walk implements Iterator<E> {
        private int at;
        private boolean given;
        private E late;
        /** What a removal has moved to places that were passed already. */
        private ArrayDeque<E> passed;
        private int expected = changes;

        private void check() {
            if (changes != expected) {
                throw new ConcurrentModificationException();
            }
        }

        public boolean hasNext() {
            return at < count || passed != null && !passed.isEmpty();
        }

        public E next() {
            check();
            if (!hasNext()) {
                throw new NoSuchElementException();
            }
            if (at < count) {
                given = true;
                at++;
                return (E) heap[at - 1];
            }
            given = false;
            late = passed.poll();
            return late;
        }

        public void remove() {
            check();
            if (given) {
                E moved = (E) removeAt(at - 1);
                if (moved == null) {
                    at--;
                } else {
                    passed = passed == null ? new ArrayDeque<E>() : passed;
                    passed.add(moved);
                }
                given = false;
            } else if (late != null) {
                int i = 0;
                while (heap[i] != late) {
                    i++;
                }
                removeAt(i);
                late = null;
            } else {
                throw new IllegalStateException();
            }
            changes++;
            expected = changes;
        }
    }

    public PriorityQueue(PriorityQueue<? extends E> queue) {
        this(11, (Comparator<? super E>) (Comparator<?>) queue.order);
        addAll(queue);
    }

    public PriorityQueue(SortedSet<? extends E> set) {
        this(11, (Comparator<? super E>) (Comparator<?>) set.comparator());
        addAll(set);
    }
}
