package java.util;

import java.util.function.BiFunction;
import java.util.function.Function;

/**
 * A map by hash codes without null, whose walks go on whatever is changed meanwhile: what ConcurrentHashMap does. Its table has the
 * lengths, and so its entries the order, of the JDK's, but where nine keys or more share one of 64 places or more.
 */
public abstract class SharedMap<K, V> extends EntryMap<K, V> {
    private HashMap.Node<K, V>[] table;
    private int count;
    /** With a table, how many entries make it grow: three quarters of its length. Without one its length at least, 0 for 16. */
    private int limit;
    /** How many nodes the last search in a place went to. */
    private int passed;

    protected SharedMap(int length) {
        limit = length;
    }

    protected SharedMap(Map<? extends K, ? extends V> map) {
        this(16);
        putEach(map);
    }

    /** The length of a table for so many entries. */
    protected static int lengthFor(int capacity) {
        if (capacity < 0) {
            throw new IllegalArgumentException();
        }
        return HashMap.powerFor((int) Math.min(1 + Math.max(capacity, 1) * 4L / 3, HashMap.MOST));
    }

    private static <T> T given(T value) {
        if (value == null) {
            throw new NullPointerException();
        }
        return value;
    }

    private static int hash(Object key) {
        int h = key.hashCode();
        return h ^ h >>> 16;
    }

    public int size() {
        return count;
    }

    HashMap.Node<K, V> entry(Object key) {
        int hash = hash(key);
        return table == null ? null : at(hash, key);
    }

    HashMap.Node<K, V> entryOrNone(Object key) {
        return key == null ? null : entry(key);
    }

    private HashMap.Node<K, V> at(int hash, Object key) {
        passed = 0;
        HashMap.Node<K, V> n = table[hash & table.length - 1];
        while (n != null) {
            passed++;
            if (n.hash == hash && (n.key == key || key.equals(n.key))) {
                break;
            }
            n = n.next;
        }
        return n;
    }

    // ---- changes

    private static IllegalStateException recursive() {
        return new IllegalStateException("Recursive update");
    }

    /** The node of a key that is to be changed. */
    private HashMap.Node<K, V> reached(Object key) {
        int hash = hash(key);
        if (table == null) {
            start(limit == 0 ? 16 : limit);
        }
        HashMap.Node<K, V> first = table[hash & table.length - 1];
        if (first != null && first.key == null) {
            throw recursive();
        }
        return at(hash, key);
    }

    private void start(int length) {
        table = (HashMap.Node<K, V>[]) new HashMap.Node[length];
        limit = length - (length >> 2);
    }

    private void reserve(int size) {
        int length = HashMap.powerFor(size + (size >> 1) + 1);
        if (table == null) {
            start(Math.max(limit, length));
        }
        while (length > limit && table.length < HashMap.MOST) {
            grow();
        }
    }

    /** Doubles the table. Of a place those at the end that stay together keep their order, and those before them come in front, turned. */
    private void grow() {
        int n = table.length;
        HashMap.Node<K, V>[] old = table;
        HashMap.Node<K, V>[] larger = (HashMap.Node<K, V>[]) new HashMap.Node[2 * n];
        for (int i = 0; i < n; i++) {
            HashMap.Node<K, V> end = old[i];
            if (end == null) {
                continue;
            }
            if (end.key == null) {
                throw recursive();
            }
            for (HashMap.Node<K, V> m = end; m != null; m = m.next) {
                if (((m.hash ^ end.hash) & n) != 0) {
                    end = m;
                }
            }
            larger[i + (end.hash & n)] = end;
            for (HashMap.Node<K, V> m = old[i]; m != end; m = m.next) {
                int place = i + (m.hash & n);
                HashMap.Node<K, V> copy = new HashMap.Node<K, V>(m.hash, m.key, m.value);
                copy.next = larger[place];
                larger[place] = copy;
            }
        }
        table = larger;
        limit = 2 * n - (n >> 1);
    }

    /** Grows a table of fewer than 64 places where as many nodes were gone to as the JDK makes a tree of. */
    private void spread(int passed) {
        if (passed >= 8 && table.length < 64) {
            reserve(2 * table.length);
        }
    }

    /** Gives a key a value, or none by null, where so many nodes were gone to for its node. */
    private V settled(HashMap.Node<K, V> n, K key, V value, int passed) {
        if (n != null && value != null) {
            n.value = value;
        } else if (n != null) {
            take(key);
        } else if (value != null) {
            HashMap.append(table, new HashMap.Node<K, V>(hash(key), key, value));
            count++;
        }
        spread(passed);
        while (count >= limit && table.length < HashMap.MOST) {
            grow();
        }
        return value;
    }

    private V put(K key, V value, boolean always) {
        given(value);
        HashMap.Node<K, V> n = reached(key);
        V old = n == null ? null : n.value;
        settled(n, key, n == null || always ? value : old, passed);
        return old;
    }

    public V put(K key, V value) {
        return put(key, value, true);
    }

    public V putIfAbsent(K key, V value) {
        return put(key, value, false);
    }

    public void putAll(Map<? extends K, ? extends V> map) {
        putEach(map);
    }

    private void putEach(Map<? extends K, ? extends V> map) {
        reserve(map.size());
        for (Map.Entry<? extends K, ? extends V> e : map.entrySet()) {
            put(e.getKey(), e.getValue(), true);
        }
    }

    public V replace(K key, V value) {
        return super.replace(key, given(value));
    }

    public boolean replace(K key, V old, V value) {
        given(old);
        return super.replace(key, old, given(value));
    }

    public boolean remove(Object key, Object value) {
        return super.remove(key, value);
    }

    /** An empty place is kept, by a node without a key, while its value is made. */
    private V computed(HashMap.Node<K, V> n, K key, Function<? super K, ? extends V> make,
        BiFunction<? super K, ? super V, ? extends V> change) {
        int before = passed;
        int hash = hash(key);
        HashMap.Node<K, V>[] places = table;
        int place = hash & places.length - 1;
        V made;
        try {
            if (before == 0) {
                places[place] = new HashMap.Node<K, V>(hash, null, null);
            }
            made = change == null ? make.apply(key) : change.apply(key, n == null ? null : n.value);
        } finally {
            if (before == 0) {
                places[place] = null;
            }
        }
        if (n == null && made != null) {
            at(hash, key);
            if (passed > before) {
                throw recursive();
            }
        }
        return settled(n, key, made, before);
    }

    public V computeIfAbsent(K key, Function<? super K, ? extends V> make) {
        given(make);
        HashMap.Node<K, V> n = reached(key);
        return n == null ? computed(n, key, make, null) : settled(n, key, n.value, passed);
    }

    public V computeIfPresent(K key, BiFunction<? super K, ? super V, ? extends V> change) {
        given(change);
        return reached(key) == null ? null : super.computeIfPresent(key, change);
    }

    public V compute(K key, BiFunction<? super K, ? super V, ? extends V> change) {
        given(change);
        return computed(reached(key), key, null, change);
    }

    public V merge(K key, V value, BiFunction<? super V, ? super V, ? extends V> join) {
        given(value);
        given(join);
        HashMap.Node<K, V> n = reached(key);
        int before = passed;
        return settled(n, key, n == null ? value : join.apply(n.value, value), before);
    }

    public V remove(Object key) {
        return take(key);
    }

    V take(Object key) {
        HashMap.Node<K, V> n = table == null ? entry(key) : reached(key);
        if (n == null) {
            return null;
        }
        HashMap.cut(table, n);
        count--;
        return n.value;
    }

    public void clear() {
        if (table != null) {
            for (int i = 0; i < table.length; i++) {
                table[i] = null;
            }
        }
        count = 0;
    }

    public boolean containsValue(Object value) {
        return super.containsValue(given(value));
    }

    // ---- walks

    Iterator<Map.Entry<K, V>> entries() {
        return new Walk(true);
    }

    Iterator<Map.Entry<K, V>> walk() {
        return new Walk(false);
    }

    /** An entry as it was come to, which writes to the map. */
    private final class Shown extends Maps.Entry<K, V> {
        Shown(K key, V value) {
            super(key, value);
        }

        public V setValue(V value) {
            put(key, value);
            return super.setValue(value);
        }
    }

    /** Along the places of the table that was there when it began, and for each along those that it was split into since. */
    private final class Walk implements Iterator<Map.Entry<K, V>> {
        private final boolean shows;
        private final int length = table == null ? 0 : table.length;
        private int place = length == 0 ? -1 : 0;
        private HashMap.Node<K, V> next;
        private HashMap.Node<K, V> given;

        Walk(boolean shows) {
            this.shows = shows;
            find();
        }

        private void find() {
            while (next == null && place >= 0) {
                next = table[place];
                if (next != null && next.key == null) {
                    next = null;
                }
                int half = table.length >> 1;
                while (half >= length && (place & half) != 0) {
                    place ^= half;
                    half >>= 1;
                }
                place = half >= length ? place + half : place + 1 < length ? place + 1 : -1;
            }
        }

        public boolean hasNext() {
            return next != null;
        }

        public Map.Entry<K, V> next() {
            if (next == null) {
                throw new NoSuchElementException();
            }
            given = next;
            Map.Entry<K, V> e = shows ? new Shown(given.key, given.value) : given;
            next = given.next;
            find();
            return e;
        }

        public void remove() {
            if (given == null) {
                throw new IllegalStateException();
            }
            take(given.key);
            given = null;
        }
    }
}
