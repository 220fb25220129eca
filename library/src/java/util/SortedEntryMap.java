package java.util;

/** A sorted map by the entries nearest to a key: what a whole map and a part of one share. Entries are handed out as copies. */
abstract class SortedEntryMap<K, V> extends EntryMap<K, V> implements NavigableMap<K, V> {
    // ---- what is to be there, each an entry or null

    abstract Map.Entry<K, V> first();

    abstract Map.Entry<K, V> last();

    /** The nearest before a key in the map's order, or at it. */
    abstract Map.Entry<K, V> before(K key, boolean orAt);

    /** The nearest behind a key in the map's order, or at it. */
    abstract Map.Entry<K, V> behind(K key, boolean orAt);

    // ---- what follows from it

    private static <K, V> Map.Entry<K, V> copy(Map.Entry<K, V> e) {
        return e == null ? null : new AbstractMap.SimpleImmutableEntry<K, V>(e);
    }

    private static <K, V> K key(Map.Entry<K, V> e) {
        return e == null ? null : e.getKey();
    }

    private static <K, V> K keyThere(Map.Entry<K, V> e) {
        if (e == null) {
            throw new NoSuchElementException();
        }
        return e.getKey();
    }

    private Map.Entry<K, V> polled(Map.Entry<K, V> e) {
        Map.Entry<K, V> copy = copy(e);
        if (e != null) {
            remove(e.getKey());
        }
        return copy;
    }

    public Map.Entry<K, V> firstEntry() {
        return copy(first());
    }

    public Map.Entry<K, V> lastEntry() {
        return copy(last());
    }

    public K firstKey() {
        return keyThere(first());
    }

    public K lastKey() {
        return keyThere(last());
    }

    public Map.Entry<K, V> floorEntry(K key) {
        return copy(before(key, true));
    }

    public Map.Entry<K, V> ceilingEntry(K key) {
        return copy(behind(key, true));
    }

    public Map.Entry<K, V> lowerEntry(K key) {
        return copy(before(key, false));
    }

    public Map.Entry<K, V> higherEntry(K key) {
        return copy(behind(key, false));
    }

    public K floorKey(K key) {
        return key(before(key, true));
    }

    public K ceilingKey(K key) {
        return key(behind(key, true));
    }

    public K lowerKey(K key) {
        return key(before(key, false));
    }

    public K higherKey(K key) {
        return key(behind(key, false));
    }

    public Map.Entry<K, V> pollFirstEntry() {
        return polled(first());
    }

    public Map.Entry<K, V> pollLastEntry() {
        return polled(last());
    }

    public Set<K> keySet() {
        return navigableKeySet();
    }

    public NavigableSet<K> navigableKeySet() {
        return new TreeSet.OfKeys<K, V>(this);
    }

    public NavigableSet<K> descendingKeySet() {
        return descendingMap().navigableKeySet();
    }

    public SortedMap<K, V> headMap(K to) {
        return headMap(to, false);
    }

    public SortedMap<K, V> tailMap(K from) {
        return tailMap(from, true);
    }

    public SortedMap<K, V> subMap(K from, K to) {
        return subMap(from, true, to, false);
    }
}
