package java.util;

public class Vector<E> extends ItemList<E> implements List<E>, RandomAccess, Cloneable, java.io.Serializable {
    /** How much room is added at a time; 0 where it is doubled. */
    private int more;

    public Vector() {
        super(10);
    }

    public Vector(int capacity) {
        super(capacity);
    }

    public Vector(Collection<? extends E> c) {
        super(c);
    }

    private void check(int index) {
        if (index < 0 || index >= size()) {
            throw new ArrayIndexOutOfBoundsException("Array index out of range: " + index);
        }
    }

    public E get(int index) {
        check(index);
        return super.get(index);
    }

    public E set(int index, E e) {
        check(index);
        return super.set(index, e);
    }

    public E remove(int index) {
        check(index);
        return super.remove(index);
    }

    public void add(int index, E e) {
        if (index < 0 || index > size()) {
            throw new ArrayIndexOutOfBoundsException(index + " > " + size());
        }
        super.add(index, e);
    }

    public boolean addAll(int index, Collection<? extends E> c) {
        if (index < 0 || index > size()) {
            throw new ArrayIndexOutOfBoundsException("Array index out of range: " + index);
        }
        return super.addAll(index, c);
    }

    public ListIterator<E> listIterator(int index) {
        if (index < 0 || index > size()) {
            throw new IndexOutOfBoundsException("Index: " + index);
        }
        return super.listIterator(index);
    }

    public void addElement(E e) {
        add(e);
    }

    public E elementAt(int index) {
        if (index >= size()) {
            throw new ArrayIndexOutOfBoundsException(index + " >= " + size());
        }
        return get(index);
    }

    public E firstElement() {
        if (size() == 0) {
            throw new NoSuchElementException();
        }
        return get(0);
    }

    public E lastElement() {
        if (size() == 0) {
            throw new NoSuchElementException();
        }
        return get(size() - 1);
    }

    public int indexOf(Object o, int from) {
        for (int i = from; i < size(); i++) {
            if (Objects.equals(o, get(i))) {
                return i;
            }
        }
        return -1;
    }

    public int lastIndexOf(Object o, int from) {
        if (from >= size()) {
            throw new IndexOutOfBoundsException(from + " >= " + size());
        }
        for (int i = from; i >= 0; i--) {
            if (Objects.equals(o, get(i))) {
                return i;
            }
        }
        return -1;
    }

    public void setSize(int size) {
        while (size() < size) {
            add(null);
        }
        removeRange(size, size());
    }

    public void removeAllElements() {
        clear();
    }

    public Vector(int capacity, int more) {
        super(capacity);
        this.more = more;
    }

    int larger(int room) {
        return more > 0 ? room + more : 2 * room;
    }

    public void setElementAt(E e, int index) {
        set(index, e);
    }

    public void insertElementAt(E e, int index) {
        add(index, e);
    }

    public void removeElementAt(int index) {
        if (index >= size()) {
            throw new ArrayIndexOutOfBoundsException(index + " >= " + size());
        }
        remove(index);
    }

    public boolean removeElement(Object o) {
        return remove(o);
    }

    public int capacity() {
        return room();
    }

    public Object clone() {
        return new Vector<E>(this);
    }

    public Enumeration<E> elements() {
        return Collections.enumeration(this);
    }

    public void copyInto(Object[] to) {
        toArray(to);
    }
}
