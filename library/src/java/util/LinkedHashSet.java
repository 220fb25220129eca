package java.util;

/** A set by hash codes, in the order in which elements came. */
public class LinkedHashSet<E> extends HashSet<E> implements Set<E>, Cloneable, java.io.Serializable {
    public LinkedHashSet() {
        super(new LinkedHashMap<E, Object>());
    }

    public LinkedHashSet(int capacity) {
        super(new LinkedHashMap<E, Object>(capacity));
    }

    public LinkedHashSet(Collection<? extends E> c) {
        this();
        addAll(c);
    }

    private LinkedHashSet(HashMap<E, Object> map) {
        super(map);
    }

    public Object clone() {
        return new LinkedHashSet<E>(copy());
    }
}
