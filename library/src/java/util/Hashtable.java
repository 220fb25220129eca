package java.util;

/** A map by hash codes without null, whose table has the lengths, and so its entries the order, of the JDK's. */
public class Hashtable<K, V> extends Dictionary<K, V> implements Map<K, V>, Cloneable, java.io.Serializable {
    private final Table<K, V> map;

    private static final class Node<K, V> extends Maps.Entry<K, V> {
        final int hash;
        Node<K, V> next;

        Node(int hash, K key, V value, Node<K, V> next) {
            super(key, value);
            this.hash = hash;
            this.next = next;
        }

        public V setValue(V value) {
            return super.setValue(given(value));
        }
    }

    private static <T> T given(T value) {
        if (value == null) {
            throw new NullPointerException();
        }
        return value;
    }

    private static final class Table<K, V> extends EntryMap<K, V> {
        private Node<K, V>[] table;
        private int count;
        private int changes;

        Table(int length) {
            table = (Node<K, V>[]) new Node[length];
        }

        private int place(int hash) {
            return (hash & Integer.MAX_VALUE) % table.length;
        }

        public int size() {
            return count;
        }

        Node<K, V> entry(Object key) {
            int hash = key.hashCode();
            Node<K, V> n = table[place(hash)];
            while (n != null && !(n.hash == hash && n.key.equals(key))) {
                n = n.next;
            }
            return n;
        }

        public V put(K key, V value) {
            given(value);
            Node<K, V> old = entry(key);
            if (old != null) {
                return old.setValue(value);
            }
            if (count >= (int) (table.length * 3L / 4)) {
                grow();
            }
            int hash = key.hashCode();
            table[place(hash)] = new Node<K, V>(hash, key, value, table[place(hash)]);
            changes++;
            count++;
            return null;
        }

        private void grow() {
            Node<K, V>[] old = table;
            table = (Node<K, V>[]) new Node[2 * old.length + 1];
            for (int i = old.length - 1; i >= 0; i--) {
                Node<K, V> n = old[i];
                while (n != null) {
                    Node<K, V> next = n.next;
                    n.next = table[place(n.hash)];
                    table[place(n.hash)] = n;
                    n = next;
                }
            }
        }

        public V remove(Object key) {
            Node<K, V> n = entry(key);
            if (n == null) {
                return null;
            }
            int place = place(n.hash);
            if (table[place] == n) {
                table[place] = n.next;
            } else {
                Node<K, V> before = table[place];
                while (before.next != n) {
                    before = before.next;
                }
                before.next = n.next;
            }
            changes++;
            count--;
            return n.value;
        }

        public void clear() {
            for (int i = 0; i < table.length; i++) {
                table[i] = null;
            }
            changes++;
            count = 0;
        }

        Iterator<Map.Entry<K, V>> entries() {
            return count == 0 ? Collections.<Map.Entry<K, V>>emptyIterator() : new Walk();
        }

        /** From the last place of the table to the first, as it was when the walk began; an entry is looked for when it is asked for. */
        final class Walk implements Iterator<Map.Entry<K, V>> {
            private final Node<K, V>[] places = table;
            private int place = table.length;
            private Node<K, V> next;
            private Node<K, V> given;
            private int expected = changes;

            public boolean hasNext() {
                while (next == null && place > 0) {
                    place--;
                    next = places[place];
                }
                return next != null;
            }

            /** The next one, whatever was changed meanwhile. */
            Node<K, V> following() {
                if (!hasNext()) {
                    throw new NoSuchElementException("Hashtable Enumerator");
                }
                given = next;
                next = given.next;
                return given;
            }

            public Map.Entry<K, V> next() {
                if (changes != expected) {
                    throw new ConcurrentModificationException();
                }
                return following();
            }

            public void remove() {
                if (given == null) {
                    throw new IllegalStateException("Hashtable Enumerator");
                }
                if (changes != expected) {
                    throw new ConcurrentModificationException();
                }
                Table.this.remove(given.key);
                given = null;
                expected = changes;
            }
        }
    }

    /** The keys, or else the values, of a table. */
    private static final class Listed<K, V> implements Enumeration<Object> {
        private final Table<K, V>.Walk all;
        private final boolean keys;

        Listed(Table<K, V> map, boolean keys) {
            all = map.new Walk();
            this.keys = keys;
        }

        public boolean hasMoreElements() {
            return all.hasNext();
        }

        public Object nextElement() {
            Node<K, V> n = all.following();
            return keys ? n.key : n.value;
        }
    }

    private Enumeration<?> listed(boolean keys) {
        return isEmpty() ? Collections.enumeration(Collections.emptyList()) : new Listed<K, V>(map, keys);
    }

    public Hashtable() {
        this(11);
    }

    public Hashtable(int capacity) {
        if (capacity < 0) {
            throw new IllegalArgumentException("Illegal Capacity: " + capacity);
        }
        map = new Table<K, V>(Math.max(capacity, 1));
    }

    public Hashtable(Map<? extends K, ? extends V> map) {
        this(Math.max(2 * map.size(), 11));
        putAll(map);
    }

    public int size() {
        return map.size();
    }

    public boolean isEmpty() {
        return map.isEmpty();
    }

    public Enumeration<K> keys() {
        return (Enumeration<K>) listed(true);
    }

    public Enumeration<V> elements() {
        return (Enumeration<V>) listed(false);
    }

    public boolean contains(Object value) {
        return map.containsValue(given(value));
    }

    public boolean containsValue(Object value) {
        return contains(value);
    }

    public boolean containsKey(Object key) {
        return map.containsKey(key);
    }

    public V get(Object key) {
        return map.get(key);
    }

    public V put(K key, V value) {
        return map.put(key, value);
    }

    public V remove(Object key) {
        return map.remove(key);
    }

    public void putAll(Map<? extends K, ? extends V> other) {
        map.putAll(other);
    }

    public void clear() {
        map.clear();
    }

    public Set<K> keySet() {
        return map.keySet();
    }

    public Collection<V> values() {
        return map.values();
    }

    public Set<Map.Entry<K, V>> entrySet() {
        return map.entrySet();
    }

    public V putIfAbsent(K key, V value) {
        return map.putIfAbsent(key, given(value));
    }

    public boolean remove(Object key, Object value) {
        return map.remove(key, given(value));
    }

    public V replace(K key, V value) {
        return map.replace(key, given(value));
    }

    public boolean replace(K key, V old, V value) {
        given(old);
        return map.replace(key, old, given(value));
    }

    protected void rehash() {
        map.grow();
    }

    /** The nodes of each place keep their order. */
    public Object clone() {
        Hashtable<K, V> copy = new Hashtable<K, V>(map.table.length);
        Table<K, V> to = copy.map;
        for (int i = 0; i < map.table.length; i++) {
            Node<K, V> last = null;
            for (Node<K, V> n = map.table[i]; n != null; n = n.next) {
                Node<K, V> made = new Node<K, V>(n.hash, n.key, n.value, null);
                if (last == null) {
                    to.table[i] = made;
                } else {
                    last.next = made;
                }
                last = made;
            }
        }
        to.count = map.count;
        return copy;
    }

    public boolean equals(Object o) {
        return o == this || o instanceof Map && map.equals(o);
    }

    public int hashCode() {
        return map.hashCode();
    }

    public String toString() {
        return map.toString();
    }
}
