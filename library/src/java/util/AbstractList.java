package java.util;

public abstract class AbstractList<E> extends AbstractCollection<E> implements List<E> {
    /** How often elements were added or removed. */
    protected int modCount;

    protected AbstractList() {
    }

    public boolean add(E e) {
        add(size(), e);
        return true;
    }

    public E set(int index, E e) {
        throw new UnsupportedOperationException();
    }

    public void add(int index, E e) {
        throw new UnsupportedOperationException();
    }

    public E remove(int index) {
        throw new UnsupportedOperationException();
    }

    public int indexOf(Object o) {
        int i = 0;
        for (E e : this) {
            if (o == null ? e == null : o.equals(e)) {
                return i;
            }
            i++;
        }
        return -1;
    }

    public int lastIndexOf(Object o) {
        for (int i = size() - 1; i >= 0; i--) {
            E e = item(i);
            if (o == null ? e == null : o.equals(e)) {
                return i;
            }
        }
        return -1;
    }

    public boolean addAll(int index, Collection<? extends E> c) {
        if (index < 0 || index > size()) {
            throw new IndexOutOfBoundsException("Index: " + index + ", Size: " + size());
        }
        int at = index;
        for (E e : c) {
            add(at, e);
            at++;
        }
        return at > index;
    }

    public void clear() {
        removeRange(0, size());
    }

    protected void removeRange(int from, int to) {
        ListIterator<E> walk = listIterator(from);
        for (int i = from; i < to; i++) {
            walk.next();
            walk.remove();
        }
    }

    /** An item, also where a program's own class has another `get`. */
    E item(int index) {
        return get(index);
    }

    /** The size, also where a part can't be used any more. */
    int count() {
        return size();
    }

    public Iterator<E> iterator() {
        return new Walk(0);
    }

    public ListIterator<E> listIterator() {
        return new Walk(0);
    }

    public ListIterator<E> listIterator(int index) {
        if (index < 0 || index > size()) {
            throw new IndexOutOfBoundsException("Index: " + index + ", Size: " + size());
        }
        return new Walk(index);
    }

    public List<E> subList(int from, int to) {
        if (from < 0) {
            throw new IndexOutOfBoundsException("fromIndex = " + from);
        }
        if (to > size()) {
            throw new IndexOutOfBoundsException("toIndex = " + to);
        }
        if (from > to) {
            throw new IllegalArgumentException("fromIndex(" + from + ") > toIndex(" + to + ")");
        }
        return new SubList<E>(this, from, to - from);
    }

    public boolean equals(Object o) {
        if (o == this) {
            return true;
        }
        if (!(o instanceof List)) {
            return false;
        }
        Iterator<E> a = iterator();
        Iterator<?> b = ((List<?>) o).iterator();
        while (a.hasNext() && b.hasNext()) {
            if (!Objects.equals(a.next(), b.next())) {
                return false;
            }
        }
        return !a.hasNext() && !b.hasNext();
    }

    public int hashCode() {
        int h = 1;
        for (E e : this) {
            h = 31 * h + (e == null ? 0 : e.hashCode());
        }
        return h;
    }

    private final class Walk implements ListIterator<E> {
        private int at;
        private int last = -1;
        private int expected = modCount;

        Walk(int at) {
            this.at = at;
        }

        private void check() {
            if (modCount != expected) {
                throw new ConcurrentModificationException();
            }
        }

        public boolean hasNext() {
            return at != count();
        }

        public E next() {
            check();
            if (at >= count()) {
                throw new NoSuchElementException();
            }
            last = at;
            at++;
            return item(last);
        }

        public void remove() {
            if (last < 0) {
                throw new IllegalStateException();
            }
            check();
            AbstractList.this.remove(last);
            at = last;
            last = -1;
            expected = modCount;
        }

        public boolean hasPrevious() {
            return at > 0;
        }

        public E previous() {
            check();
            if (at <= 0) {
                throw new NoSuchElementException();
            }
            at--;
            last = at;
            return item(at);
        }

        public int nextIndex() {
            return at;
        }

        public int previousIndex() {
            return at - 1;
        }

        public void set(E e) {
            if (last < 0) {
                throw new IllegalStateException();
            }
            check();
            AbstractList.this.set(last, e);
        }

        public void add(E e) {
            check();
            AbstractList.this.add(at, e);
            at++;
            last = -1;
            expected = modCount;
        }
    }

    /** A part, whose changes are as many as those of the whole, or it was changed from elsewhere. */
    private static final class SubList<E> extends AbstractList<E> {
        private final AbstractList<E> of;
        private final int from;
        private int count;

        SubList(AbstractList<E> of, int from, int count) {
            this.of = of;
            this.from = from;
            this.count = count;
            modCount = of.modCount;
        }

        private void check() {
            if (of.modCount != modCount) {
                throw new ConcurrentModificationException();
            }
        }

        private void check(int index) {
            if (index < 0 || index >= count) {
                throw new IndexOutOfBoundsException("Index " + index + " out of bounds for length " + count);
            }
            check();
        }

        private void checkToAdd(int index) {
            if (index < 0 || index > count) {
                throw new IndexOutOfBoundsException("Index: " + index + ", Size: " + count);
            }
            check();
        }

        private void changed(int more) {
            count += more;
            modCount = of.modCount;
        }

        public int size() {
            check();
            return count;
        }

        int count() {
            return count;
        }

        public E get(int index) {
            check(index);
            return of.item(from + index);
        }

        public E set(int index, E e) {
            check(index);
            return of.set(from + index, e);
        }

        public void add(int index, E e) {
            checkToAdd(index);
            of.add(from + index, e);
            changed(1);
        }

        public boolean addAll(Collection<? extends E> c) {
            return addAll(count, c);
        }

        public boolean addAll(int index, Collection<? extends E> c) {
            checkToAdd(index);
            int more = c.size();
            if (more > 0) {
                of.addAll(from + index, c);
                changed(more);
            }
            return more > 0;
        }

        protected void removeRange(int begin, int end) {
            check();
            of.removeRange(from + begin, from + end);
            changed(begin - end);
        }

        public E remove(int index) {
            check(index);
            E old = of.remove(from + index);
            changed(-1);
            return old;
        }
    }
}
