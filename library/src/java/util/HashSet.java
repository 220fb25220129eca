package java.util;

public class HashSet<E> extends AbstractSet<E> implements Set<E>, Cloneable, java.io.Serializable {
    private static final Object THERE = new Object();

    private final HashMap<E, Object> map;

    public HashSet() {
        map = new HashMap<E, Object>();
    }

    public HashSet(int capacity) {
        map = new HashMap<E, Object>(capacity);
    }

    public HashSet(Collection<? extends E> c) {
        map = new HashMap<E, Object>(Math.max(c.size() + c.size() / 3 + 1, 16));
        addAll(c);
    }

    HashSet(HashMap<E, Object> map) {
        this.map = map;
    }

    public int size() {
        return map.size();
    }

    public boolean contains(Object o) {
        return map.containsKey(o);
    }

    public boolean add(E e) {
        return map.put(e, THERE) == null;
    }

    public boolean remove(Object o) {
        return map.remove(o) != null;
    }

    public void clear() {
        map.clear();
    }

    public Iterator<E> iterator() {
        return map.keySet().iterator();
    }

    HashMap<E, Object> copy() {
        return (HashMap<E, Object>) map.clone();
    }

    public Object clone() {
        return new HashSet<E>(copy());
    }
}
