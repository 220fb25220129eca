package java.util;

import java.util.function.BiFunction;
import java.util.function.Function;

/**
 * A map by hash codes. Its table has the lengths, and so its entries the order, of the JDK's, but where nine keys or more share one of 64
 * places or more: the JDK makes a tree of those.
 */
public class HashMap<K, V> extends EntryMap<K, V> implements Map<K, V>, Cloneable, java.io.Serializable {
    static final int MOST = 1 << 30;

    private Node<K, V>[] table;
    private int count;
    /** With a table, the entries that it takes before it grows: three quarters of its length. Without one its length, 0 for 16. */
    private int limit;
    private int changes;

    static class Node<K, V> extends Maps.Entry<K, V> {
        final int hash;
        Node<K, V> next;

        Node(int hash, K key, V value) {
            super(key, value);
            this.hash = hash;
        }
    }

    public HashMap() {
    }

    public HashMap(int capacity) {
        if (capacity < 0) {
            throw new IllegalArgumentException("Illegal initial capacity: " + capacity);
        }
        limit = powerFor(capacity);
    }

    public HashMap(Map<? extends K, ? extends V> map) {
        putEach(map);
    }

    static int powerFor(int n) {
        int p = 1;
        while (p < n && p < MOST) {
            p <<= 1;
        }
        return p;
    }

    private static int hash(Object key) {
        int h = key == null ? 0 : key.hashCode();
        return h ^ h >>> 16;
    }

    public int size() {
        return count;
    }

    Node<K, V> entry(Object key) {
        return table == null ? null : at(hash(key), key);
    }

    private Node<K, V> at(int hash, Object key) {
        Node<K, V> n = table[hash & table.length - 1];
        while (n != null && !(n.hash == hash && (n.key == key || key != null && key.equals(n.key)))) {
            n = n.next;
        }
        return n;
    }

    // ---- what a map with an order of its own does more

    Node<K, V> made(int hash, K key, V value) {
        return new Node<K, V>(hash, key, value);
    }

    void came() {
    }

    void gone(Node<K, V> n) {
    }

    void allGone() {
    }

    // ---- changes

    public V put(K key, V value) {
        return put(key, value, true);
    }

    public V putIfAbsent(K key, V value) {
        return put(key, value, false);
    }

    private V put(K key, V value, boolean always) {
        int hash = hash(key);
        if (table == null) {
            grow(limit == 0 ? 16 : limit);
        }
        Node<K, V> old = at(hash, key);
        if (old != null) {
            return always || old.value == null ? old.setValue(value) : old.value;
        }
        spread(append(table, made(hash, key, value)), 8);
        changes++;
        count++;
        if (count > limit && table.length < MOST) {
            grow(2 * table.length);
        }
        came();
        return null;
    }

    public void putAll(Map<? extends K, ? extends V> map) {
        putEach(map);
    }

    final void putEach(Map<? extends K, ? extends V> map) {
        int n = map.size();
        if (n > 0 && table == null) {
            if (n + n / 3 + 1 > limit) {
                limit = powerFor(n + n / 3 + 1);
            }
        } else {
            while (n > limit && table.length < MOST) {
                grow(2 * table.length);
            }
        }
        for (Map.Entry<? extends K, ? extends V> e : map.entrySet()) {
            put(e.getKey(), e.getValue(), true);
        }
    }

    /** Says how many nodes stand before the new one in its place. */
    static <K, V> int append(Node<K, V>[] table, Node<K, V> n) {
        int at = n.hash & table.length - 1;
        if (table[at] == null) {
            table[at] = n;
            return 0;
        }
        int before = 1;
        Node<K, V> last = table[at];
        while (last.next != null) {
            last = last.next;
            before++;
        }
        last.next = n;
        return before;
    }

    /** Grows a table of fewer than 64 places where as many nodes stood in that of a new one as the JDK makes a tree of. */
    private void spread(int before, int many) {
        if (before >= many && table.length < 64) {
            grow(2 * table.length);
        }
    }

    /** Puts a new node in front of its place, as those methods do that make a value: they grow the table before, and not behind. */
    private void putInFront(K key, V value) {
        Node<K, V> n = made(hash(key), key, value);
        int place = n.hash & table.length - 1;
        n.next = table[place];
        table[place] = n;
        int before = 0;
        for (Node<K, V> m = n.next; m != null; m = m.next) {
            before++;
        }
        spread(before, 7);
        changes++;
        count++;
        came();
    }

    private Node<K, V> entryToMake(K key) {
        if (table == null) {
            grow(limit == 0 ? 16 : limit);
        } else if (count > limit && table.length < MOST) {
            grow(2 * table.length);
        }
        return at(hash(key), key);
    }

    private void check(int expected) {
        if (changes != expected) {
            throw new ConcurrentModificationException();
        }
    }

    public V computeIfAbsent(K key, Function<? super K, ? extends V> make) {
        Node<K, V> n = entryToMake(key);
        if (n != null && n.value != null) {
            return n.value;
        }
        int expected = changes;
        V made = make.apply(key);
        check(expected);
        if (made != null && n != null) {
            n.value = made;
        } else if (made != null) {
            putInFront(key, made);
        }
        return made;
    }

    public V compute(K key, BiFunction<? super K, ? super V, ? extends V> change) {
        Node<K, V> n = entryToMake(key);
        int expected = changes;
        V made = change.apply(key, n == null ? null : n.value);
        check(expected);
        return made(n, key, made);
    }

    public V merge(K key, V value, BiFunction<? super V, ? super V, ? extends V> join) {
        if (value == null || join == null) {
            throw new NullPointerException();
        }
        Node<K, V> n = entryToMake(key);
        if (n == null || n.value == null) {
            return made(n, key, value);
        }
        int expected = changes;
        V made = join.apply(n.value, value);
        check(expected);
        return made(n, key, made);
    }

    private V made(Node<K, V> n, K key, V value) {
        if (n != null && value != null) {
            n.value = value;
        } else if (n != null) {
            take(key);
        } else if (value != null) {
            putInFront(key, value);
        }
        return value;
    }

    private void grow(int length) {
        Node<K, V>[] larger = (Node<K, V>[]) new Node[length];
        if (table != null) {
            for (Node<K, V> first : table) {
                Node<K, V> n = first;
                while (n != null) {
                    Node<K, V> next = n.next;
                    n.next = null;
                    append(larger, n);
                    n = next;
                }
            }
        }
        table = larger;
        limit = length - (length + 3 >> 2);
    }

    public V remove(Object key) {
        return take(key);
    }

    V take(Object key) {
        if (table == null) {
            return null;
        }
        Node<K, V> n = at(hash(key), key);
        if (n == null) {
            return null;
        }
        cut(table, n);
        changes++;
        count--;
        gone(n);
        return n.value;
    }

    static <K, V> void cut(Node<K, V>[] table, Node<K, V> n) {
        int place = n.hash & table.length - 1;
        if (table[place] == n) {
            table[place] = n.next;
        } else {
            Node<K, V> before = table[place];
            while (before.next != n) {
                before = before.next;
            }
            before.next = n.next;
        }
    }

    public void clear() {
        if (table != null) {
            for (int i = 0; i < table.length; i++) {
                table[i] = null;
            }
        }
        changes++;
        count = 0;
        allGone();
    }

    public Object clone() {
        return new HashMap<K, V>(this);
    }

    // ---- the walk

    int changes() {
        return changes;
    }

    Iterator<Map.Entry<K, V>> entries() {
        return new Walk();
    }

    private final class Walk implements Iterator<Map.Entry<K, V>> {
        private int place;
        private Node<K, V> next;
        private Node<K, V> given;
        private int expected = changes;

        Walk() {
            find();
        }

        private void find() {
            if (table != null) {
                while (next == null && place < table.length) {
                    next = table[place];
                    place++;
                }
            }
        }

        public boolean hasNext() {
            return next != null;
        }

        public Map.Entry<K, V> next() {
            if (changes != expected) {
                throw new ConcurrentModificationException();
            }
            if (next == null) {
                throw new NoSuchElementException();
            }
            given = next;
            next = given.next;
            find();
            return given;
        }

        public void remove() {
            if (given == null) {
                throw new IllegalStateException();
            }
            if (changes != expected) {
                throw new ConcurrentModificationException();
            }
            take(given.key);
            given = null;
            expected = changes;
        }
    }
}
