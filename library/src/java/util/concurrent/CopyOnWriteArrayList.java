package java.util.concurrent;

import java.util.AbstractList;
import java.util.ArrayList;
import java.util.Arrays;
import java.util.Collection;
import java.util.Collections;
import java.util.Comparator;
import java.util.ConcurrentModificationException;
import java.util.Iterator;
import java.util.List;
import java.util.ListIterator;
import java.util.RandomAccess;
import java.util.View;
import java.util.function.Predicate;
import java.util.function.UnaryOperator;

/** A list whose walks show it as it was when they began: an item more stands behind all that they look at, and others take a new array. */
public class CopyOnWriteArrayList<E> extends View<E> implements List<E>, RandomAccess, Cloneable, java.io.Serializable {
    /** The list between two changes. */
    private static final class State<E> extends AbstractList<E> implements RandomAccess {
        private final Object[] items;
        private final int count;

        State(Object[] items, int count) {
            this.items = items;
            this.count = count;
        }

        public int size() {
            return count;
        }

        public E get(int index) {
            if (index < 0 || index >= count) {
                throw new ArrayIndexOutOfBoundsException("Index " + index + " out of bounds for length " + count);
            }
            return (E) items[index];
        }

        public Object[] toArray() {
            return Arrays.copyOf(items, count);
        }
    }

    public CopyOnWriteArrayList() {
        super(new State<E>(new Object[0], 0));
    }

    public CopyOnWriteArrayList(Collection<? extends E> c) {
        this();
        addAll(c);
    }

    public CopyOnWriteArrayList(E[] items) {
        this();
        splice(0, 0, items);
    }

    private State<E> now() {
        return (State<E>) of;
    }

    /** Puts items in the place of some. */
    private void splice(int from, int to, Object... by) {
        int count = size();
        Object[] old = now().items;
        Object[] items = new Object[count - (to - from) + by.length];
        System.arraycopy(old, 0, items, 0, from);
        System.arraycopy(by, 0, items, from, by.length);
        System.arraycopy(old, to, items, from + by.length, count - to);
        of = new State<E>(items, items.length);
    }

    private boolean become(List<E> all, boolean changed) {
        if (changed) {
            splice(0, size(), all.toArray());
        }
        return changed;
    }

    private List<E> copy() {
        return new ArrayList<E>(of);
    }

    private void check(int index) {
        if (index < 0 || index > size()) {
            throw new IndexOutOfBoundsException("Index: " + index + ", Size: " + size());
        }
    }

    // ---- what is read

    public E get(int index) {
        return now().get(index);
    }

    public int indexOf(Object o) {
        return now().indexOf(o);
    }

    public int lastIndexOf(Object o) {
        return now().lastIndexOf(o);
    }

    public Iterator<E> iterator() {
        return Collections.unmodifiableList(now()).iterator();
    }

    public ListIterator<E> listIterator() {
        return now().listIterator();
    }

    public ListIterator<E> listIterator(int index) {
        return now().listIterator(index);
    }

    public Object clone() {
        return new CopyOnWriteArrayList<E>(this);
    }

    // ---- changes

    public boolean add(E e) {
        State<E> s = now();
        Object[] items = s.items;
        if (s.count == items.length) {
            items = new Object[s.count + (s.count >> 1) + 4];
            System.arraycopy(s.items, 0, items, 0, s.count);
        }
        items[s.count] = e;
        of = new State<E>(items, s.count + 1);
        return true;
    }

    public void add(int index, E e) {
        check(index);
        splice(index, index, e);
    }

    public boolean addIfAbsent(E e) {
        return !contains(e) && add(e);
    }

    public int addAllAbsent(Collection<? extends E> c) {
        int before = size();
        for (E e : c) {
            addIfAbsent(e);
        }
        return size() - before;
    }

    public boolean addAll(Collection<? extends E> c) {
        return addAll(size(), c);
    }

    public boolean addAll(int index, Collection<? extends E> c) {
        Object[] more = c.toArray();
        check(index);
        splice(index, index, more);
        return more.length > 0;
    }

    public E set(int index, E e) {
        E old = get(index);
        splice(index, index + 1, e);
        return old;
    }

    public E remove(int index) {
        E old = get(index);
        splice(index, index + 1);
        return old;
    }

    public boolean remove(Object o) {
        int at = indexOf(o);
        if (at >= 0) {
            splice(at, at + 1);
        }
        return at >= 0;
    }

    public void clear() {
        splice(0, size());
    }

    public boolean removeAll(Collection<?> c) {
        List<E> all = copy();
        return become(all, all.removeAll(c));
    }

    public boolean retainAll(Collection<?> c) {
        List<E> all = copy();
        return become(all, all.retainAll(c));
    }

    public boolean removeIf(Predicate<? super E> test) {
        List<E> all = copy();
        return become(all, all.removeIf(test));
    }

    public void replaceAll(UnaryOperator<E> change) {
        List<E> all = copy();
        all.replaceAll(change);
        become(all, true);
    }

    public void sort(Comparator<? super E> order) {
        List<E> all = copy();
        all.sort(order);
        become(all, true);
    }

    // ---- a part, until the list is changed by others

    public List<E> subList(int from, int to) {
        if (from < 0 || to > size() || from > to) {
            throw new IndexOutOfBoundsException();
        }
        return new Part(from, to - from);
    }

    private final class Part extends AbstractList<E> implements RandomAccess {
        private final int from;
        private int count;
        private Collection<E> expected = of;

        Part(int from, int count) {
            this.from = from;
            this.count = count;
        }

        private List<E> part() {
            if (of != expected) {
                throw new ConcurrentModificationException();
            }
            return now().subList(from, from + count);
        }

        private void changed(int by) {
            count += by;
            expected = of;
        }

        public int size() {
            return part().size();
        }

        public E get(int index) {
            return part().get(index);
        }

        public Iterator<E> iterator() {
            return listIterator(0);
        }

        public ListIterator<E> listIterator(int index) {
            return part().listIterator(index);
        }

        public E set(int index, E e) {
            E old = get(index);
            CopyOnWriteArrayList.this.set(from + index, e);
            changed(0);
            return old;
        }

        public void add(int index, E e) {
            part().listIterator(index);
            CopyOnWriteArrayList.this.add(from + index, e);
            changed(1);
        }

        public E remove(int index) {
            E old = get(index);
            CopyOnWriteArrayList.this.remove(from + index);
            changed(-1);
            return old;
        }

        public boolean remove(Object o) {
            int at = indexOf(o);
            if (at >= 0) {
                remove(at);
            }
            return at >= 0;
        }

        protected void removeRange(int start, int end) {
            part();
            splice(from + start, from + end);
            changed(start - end);
        }
    }
}
