package java.util;

/** A map by its set of entries alone. */
public abstract class AbstractMap<K, V> implements Map<K, V> {
    protected AbstractMap() {
    }

    public abstract Set<Map.Entry<K, V>> entrySet();

    private Map.Entry<K, V> found(Object key) {
        for (Map.Entry<K, V> e : entrySet()) {
            if (Objects.equals(key, e.getKey())) {
                return e;
            }
        }
        return null;
    }

    public int size() {
        return entrySet().size();
    }

    public boolean isEmpty() {
        return size() == 0;
    }

    public V get(Object key) {
        Map.Entry<K, V> e = found(key);
        return e == null ? null : e.getValue();
    }

    public boolean containsKey(Object key) {
        return found(key) != null;
    }

    public boolean containsValue(Object value) {
        for (Map.Entry<K, V> e : entrySet()) {
            if (Objects.equals(value, e.getValue())) {
                return true;
            }
        }
        return false;
    }

    public V put(K key, V value) {
        throw new UnsupportedOperationException();
    }

    public V remove(Object key) {
        for (Iterator<Map.Entry<K, V>> i = entrySet().iterator(); i.hasNext();) {
            Map.Entry<K, V> e = i.next();
            if (Objects.equals(key, e.getKey())) {
                V old = e.getValue();
                i.remove();
                return old;
            }
        }
        return null;
    }

    public void putAll(Map<? extends K, ? extends V> map) {
        for (Map.Entry<? extends K, ? extends V> e : map.entrySet()) {
            put(e.getKey(), e.getValue());
        }
    }

    public void clear() {
        entrySet().clear();
    }

    /** Along the entries, none of which is handed out or set. */
    Iterator<Map.Entry<K, V>> walk() {
        return entrySet().iterator();
    }

    /** Removes a key, also where a program's own class has another `remove`. */
    V take(Object key) {
        return remove(key);
    }

    public Set<K> keySet() {
        return new Maps.Keys<K, V>(this);
    }

    public Collection<V> values() {
        return new Maps.Values<K, V>(this);
    }

    public boolean equals(Object o) {
        if (o == this) {
            return true;
        }
        if (!(o instanceof Map) || ((Map<?, ?>) o).size() != size()) {
            return false;
        }
        Map<?, ?> other = (Map<?, ?>) o;
        for (Map.Entry<K, V> e : entrySet()) {
            Object v = other.get(e.getKey());
            if (!Objects.equals(e.getValue(), v) || v == null && !other.containsKey(e.getKey())) {
                return false;
            }
        }
        return true;
    }

    public int hashCode() {
        int h = 0;
        for (Map.Entry<K, V> e : entrySet()) {
            h += e.hashCode();
        }
        return h;
    }

    public String toString() {
        StringBuilder out = new StringBuilder();
        out.append('{');
        for (Map.Entry<K, V> e : entrySet()) {
            if (out.length() > 1) {
                out.append(", ");
            }
            K key = e.getKey();
            V value = e.getValue();
            out.append(key == this ? "(this Map)" : String.valueOf(key)).append('=')
                .append(value == this ? "(this Map)" : String.valueOf(value));
        }
        return out.append('}').toString();
    }

    public static class SimpleEntry<K, V> extends Maps.Entry<K, V> implements java.io.Serializable {
        public SimpleEntry(K key, V value) {
            super(key, value);
        }

        public SimpleEntry(Map.Entry<? extends K, ? extends V> of) {
            super(of.getKey(), of.getValue());
        }
    }

    public static class SimpleImmutableEntry<K, V> extends Maps.Entry<K, V> implements java.io.Serializable {
        public SimpleImmutableEntry(K key, V value) {
            super(key, value);
        }

        public SimpleImmutableEntry(Map.Entry<? extends K, ? extends V> of) {
            super(of.getKey(), of.getValue());
        }

        public V setValue(V value) {
            throw new UnsupportedOperationException();
        }
    }
}
