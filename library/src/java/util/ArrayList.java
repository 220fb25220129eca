package java.util;

public class ArrayList<E> extends ItemList<E> implements List<E>, RandomAccess, Cloneable, java.io.Serializable {
    public ArrayList() {
    }

    public ArrayList(int capacity) {
        super(capacity);
    }

    public ArrayList(Collection<? extends E> c) {
        super(c);
    }

    public Object clone() {
        return new ArrayList<E>(this);
    }
}
