package java.util;

/** A collection that shows another one, for those that are no AbstractCollection in Java. */
public abstract class View<E> implements Collection<E> {
    protected Collection<E> of;

    protected View(Collection<E> of) {
        this.of = of;
    }

    public int size() {
        return of.size();
    }

    public boolean isEmpty() {
        return of.isEmpty();
    }

    public boolean contains(Object o) {
        return of.contains(o);
    }

    public boolean containsAll(Collection<?> c) {
        return of.containsAll(c);
    }

    public Iterator<E> iterator() {
        return of.iterator();
    }

    public Object[] toArray() {
        return of.toArray();
    }

    public <T> T[] toArray(T[] a) {
        return of.toArray(a);
    }

    public boolean remove(Object o) {
        return of.remove(o);
    }

    public boolean removeAll(Collection<?> c) {
        return of.removeAll(c);
    }

    public boolean retainAll(Collection<?> c) {
        return of.retainAll(c);
    }

    public void clear() {
        of.clear();
    }

    public boolean equals(Object o) {
        return o == this || of.equals(o);
    }

    public int hashCode() {
        return of.hashCode();
    }

    public String toString() {
        return of.toString();
    }
}
