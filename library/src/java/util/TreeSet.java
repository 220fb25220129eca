package java.util;

/** The keys of a sorted map. */
public class TreeSet<E> extends AbstractSet<E> implements NavigableSet<E>, Cloneable, java.io.Serializable {
    private static final Object THERE = new Object();

    private final NavigableMap<E, Object> map;

    public TreeSet() {
        map = new TreeMap<E, Object>();
    }

    public TreeSet(Comparator<? super E> order) {
        map = new TreeMap<E, Object>(order);
    }

    public TreeSet(Collection<? extends E> c) {
        map = new TreeMap<E, Object>();
        addAll(c);
    }

    public TreeSet(SortedSet<E> set) {
        map = new TreeMap<E, Object>(set.comparator());
        addAll(set);
    }

    TreeSet(NavigableMap<E, ?> map, boolean own) {
        this.map = (NavigableMap<E, Object>) map;
    }

    private static <E> TreeSet<E> of(NavigableMap<E, Object> map) {
        return new TreeSet<E>(map, true);
    }

    /** The keys of a map of somebody's, to which none can be added. */
    static final class OfKeys<K, V> extends TreeSet<K> {
        private final NavigableMap<K, V> of;

        OfKeys(NavigableMap<K, V> of) {
            super(of, false);
            this.of = of;
        }

        public boolean add(K key) {
            throw new UnsupportedOperationException();
        }

        public boolean remove(Object key) {
            boolean there = of.containsKey(key);
            of.remove(key);
            return there;
        }

        public NavigableSet<K> descendingSet() {
            return new OfKeys<K, V>(of.descendingMap());
        }

        public NavigableSet<K> headSet(K to, boolean withTo) {
            return new OfKeys<K, V>(of.headMap(to, withTo));
        }

        public NavigableSet<K> tailSet(K from, boolean withFrom) {
            return new OfKeys<K, V>(of.tailMap(from, withFrom));
        }

        public NavigableSet<K> subSet(K from, boolean withFrom, K to, boolean withTo) {
            return new OfKeys<K, V>(of.subMap(from, withFrom, to, withTo));
        }
    }

    public int size() {
        return map.size();
    }

    public boolean isEmpty() {
        return map.isEmpty();
    }

    public boolean contains(Object o) {
        return map.containsKey(o);
    }

    public boolean add(E e) {
        return map.put(e, THERE) == null;
    }

    public boolean remove(Object o) {
        return map.remove(o) != null;
    }

    public void clear() {
        map.clear();
    }

    public Iterator<E> iterator() {
        return new Maps.KeyWalk<E, Object>(map.entrySet().iterator());
    }

    public Comparator<? super E> comparator() {
        return map.comparator();
    }

    public E first() {
        return map.firstKey();
    }

    public E last() {
        return map.lastKey();
    }

    public E floor(E e) {
        return map.floorKey(e);
    }

    public E ceiling(E e) {
        return map.ceilingKey(e);
    }

    public E lower(E e) {
        return map.lowerKey(e);
    }

    public E higher(E e) {
        return map.higherKey(e);
    }

    public E pollFirst() {
        Map.Entry<E, Object> e = map.pollFirstEntry();
        return e == null ? null : e.getKey();
    }

    public E pollLast() {
        Map.Entry<E, Object> e = map.pollLastEntry();
        return e == null ? null : e.getKey();
    }

    public NavigableSet<E> descendingSet() {
        return of(map.descendingMap());
    }

    public Iterator<E> descendingIterator() {
        return descendingSet().iterator();
    }

    public NavigableSet<E> headSet(E to, boolean withTo) {
        return of(map.headMap(to, withTo));
    }

    public NavigableSet<E> tailSet(E from, boolean withFrom) {
        return of(map.tailMap(from, withFrom));
    }

    public NavigableSet<E> subSet(E from, boolean withFrom, E to, boolean withTo) {
        return of(map.subMap(from, withFrom, to, withTo));
    }

    public SortedSet<E> headSet(E to) {
        return headSet(to, false);
    }

    public SortedSet<E> tailSet(E from) {
        return tailSet(from, true);
    }

    public SortedSet<E> subSet(E from, E to) {
        return subSet(from, true, to, false);
    }

    public Object clone() {
        return new TreeSet<E>((SortedSet<E>) this);
    }
}
