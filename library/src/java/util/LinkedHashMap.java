package java.util;

/** A map by hash codes, in the order in which keys came. The order of access takes a float in Java, and so isn't there. */
public class LinkedHashMap<K, V> extends HashMap<K, V> implements Map<K, V> {
    private Link<K, V> first;
    private Link<K, V> last;
    /** Whether none goes, as while the map is made of another one. */
    private boolean keeps;

    private static final class Link<K, V> extends HashMap.Node<K, V> {
        Link<K, V> before;
        Link<K, V> after;

        Link(int hash, K key, V value) {
            super(hash, key, value);
        }
    }

    public LinkedHashMap() {
    }

    public LinkedHashMap(int capacity) {
        super(capacity);
    }

    public LinkedHashMap(Map<? extends K, ? extends V> map) {
        keeps = true;
        putEach(map);
        keeps = false;
    }

    /** Tells whether the entry that came first goes, now that another has come. */
    protected boolean removeEldestEntry(Map.Entry<K, V> eldest) {
        return false;
    }

    HashMap.Node<K, V> made(int hash, K key, V value) {
        Link<K, V> l = new Link<K, V>(hash, key, value);
        l.before = last;
        if (last == null) {
            first = l;
        } else {
            last.after = l;
        }
        last = l;
        return l;
    }

    void came() {
        if (!keeps && first != null && removeEldestEntry(first)) {
            take(first.key);
        }
    }

    void gone(HashMap.Node<K, V> n) {
        Link<K, V> l = (Link<K, V>) n;
        if (l.before == null) {
            first = l.after;
        } else {
            l.before.after = l.after;
        }
        if (l.after == null) {
            last = l.before;
        } else {
            l.after.before = l.before;
        }
    }

    void allGone() {
        first = null;
        last = null;
    }

    public Object clone() {
        return new LinkedHashMap<K, V>(this);
    }

    Iterator<Map.Entry<K, V>> entries() {
        return new Walk();
    }

    private final class Walk implements Iterator<Map.Entry<K, V>> {
        private Link<K, V> next = first;
        private Link<K, V> given;
        private int expected = changes();

        Walk() {
        }

        private void check() {
            if (changes() != expected) {
                throw new ConcurrentModificationException();
            }
        }

        public boolean hasNext() {
            return next != null;
        }

        public Map.Entry<K, V> next() {
            check();
            if (next == null) {
                throw new NoSuchElementException();
            }
            given = next;
            next = next.after;
            return given;
        }

        public void remove() {
            if (given == null) {
                throw new IllegalStateException();
            }
            check();
            take(given.key);
            given = null;
            expected = changes();
        }
    }
}
