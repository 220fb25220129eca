package java.util;

/** A list that is walked along. */
public abstract class AbstractSequentialList<E> extends AbstractList<E> {
    protected AbstractSequentialList() {
    }

    private ListIterator<E> to(int index) {
        ListIterator<E> i = listIterator(index);
        if (!i.hasNext()) {
            throw new IndexOutOfBoundsException("Index: " + index);
        }
        return i;
    }

    public abstract ListIterator<E> listIterator(int index);

    public ListIterator<E> listIterator() {
        return listIterator(0);
    }

    public Iterator<E> iterator() {
        return listIterator(0);
    }

    public E get(int index) {
        return to(index).next();
    }

    public E set(int index, E e) {
        ListIterator<E> i = to(index);
        E old = i.next();
        i.set(e);
        return old;
    }

    public void add(int index, E e) {
        listIterator(index).add(e);
    }

    public E remove(int index) {
        ListIterator<E> i = to(index);
        E old = i.next();
        i.remove();
        return old;
    }

    public boolean addAll(int index, Collection<? extends E> c) {
        ListIterator<E> i = listIterator(index);
        for (E e : c) {
            i.add(e);
        }
        return !c.isEmpty();
    }
}
