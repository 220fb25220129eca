package java.util;

import java.util.function.UnaryOperator;

/** A list in an array that grows. */
abstract class ItemList<E> extends AbstractList<E> implements RandomAccess, Cloneable, java.io.Serializable {
    private static final Object[] NONE = new Object[0];

    private Object[] items;
    private int count;

    ItemList() {
        items = NONE;
    }

    ItemList(int capacity) {
        if (capacity < 0) {
            throw new IllegalArgumentException("Illegal Capacity: " + capacity);
        }
        items = new Object[capacity];
    }

    ItemList(Collection<? extends E> c) {
        Object[] all = c.toArray();
        count = all.length;
        items = new Object[count];
        System.arraycopy(all, 0, items, 0, count);
    }

    public void ensureCapacity(int capacity) {
        reserve(capacity - count);
    }

    public void trimToSize() {
    }

    /** How many items there is room for, where there was for some. */
    int larger(int room) {
        return room == 0 ? 10 : room + (room >> 1) + 1;
    }

    final int room() {
        return items.length;
    }

    private void reserve(int more) {
        int need = count + more;
        if (need > items.length) {
            Object[] larger = new Object[Math.max(need, larger(items.length))];
            System.arraycopy(items, 0, larger, 0, count);
            items = larger;
        }
    }

    private void check(int index) {
        if (index < 0 || index >= count) {
            throw new IndexOutOfBoundsException("Index " + index + " out of bounds for length " + count);
        }
    }

    public int size() {
        return count;
    }

    public E get(int index) {
        return item(index);
    }

    E item(int index) {
        check(index);
        return (E) items[index];
    }

    public E set(int index, E e) {
        check(index);
        E old = (E) items[index];
        items[index] = e;
        return old;
    }

    public boolean add(E e) {
        reserve(1);
        items[count] = e;
        count++;
        modCount++;
        return true;
    }

    public void add(int index, E e) {
        if (index < 0 || index > count) {
            throw new IndexOutOfBoundsException("Index: " + index + ", Size: " + count);
        }
        reserve(1);
        System.arraycopy(items, index, items, index + 1, count - index);
        items[index] = e;
        count++;
        modCount++;
    }

    public E remove(int index) {
        check(index);
        E old = (E) items[index];
        removeRange(index, index + 1);
        return old;
    }

    public boolean remove(Object o) {
        int at = indexOf(o);
        if (at < 0) {
            return false;
        }
        removeRange(at, at + 1);
        return true;
    }

    protected void removeRange(int from, int to) {
        System.arraycopy(items, to, items, from, count - to);
        int left = count - (to - from);
        for (int i = left; i < count; i++) {
            items[i] = null;
        }
        count = left;
        modCount++;
    }

    public boolean addAll(Collection<? extends E> c) {
        return addAll(count, c);
    }

    public boolean addAll(int index, Collection<? extends E> c) {
        if (index < 0 || index > count) {
            throw new IndexOutOfBoundsException("Index: " + index + ", Size: " + count);
        }
        Object[] more = c.toArray();
        reserve(more.length);
        System.arraycopy(items, index, items, index + more.length, count - index);
        System.arraycopy(more, 0, items, index, more.length);
        count += more.length;
        modCount++;
        return more.length > 0;
    }

    public boolean contains(Object o) {
        return indexOf(o) >= 0;
    }

    public int indexOf(Object o) {
        for (int i = 0; i < count; i++) {
            if (o == null ? items[i] == null : o.equals(items[i])) {
                return i;
            }
        }
        return -1;
    }

    public Object[] toArray() {
        Object[] all = new Object[count];
        System.arraycopy(items, 0, all, 0, count);
        return all;
    }

    public void sort(Comparator<? super E> order) {
        Arrays.sort((E[]) items, 0, count, order);
        modCount++;
    }

    public void replaceAll(UnaryOperator<E> change) {
        for (int i = 0; i < count; i++) {
            items[i] = change.apply((E) items[i]);
        }
        modCount++;
    }
}
