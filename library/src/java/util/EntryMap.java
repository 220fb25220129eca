package java.util;

import java.util.function.BiFunction;
import java.util.function.Function;

/** A map that finds an entry by its key, and walks along its entries. */
abstract class EntryMap<K, V> extends AbstractMap<K, V> {
    /** The entry of a key, or null. */
    abstract Map.Entry<K, V> entry(Object key);

    /** The same, where a map without null is asked for one. */
    Map.Entry<K, V> entryOrNone(Object key) {
        return entry(key);
    }

    /** All entries, in the map's order; the walk removes. */
    abstract Iterator<Map.Entry<K, V>> entries();

    public abstract int size();

    public V get(Object key) {
        Map.Entry<K, V> e = entry(key);
        return e == null ? null : e.getValue();
    }

    public V getOrDefault(Object key, V other) {
        Map.Entry<K, V> e = entry(key);
        return e == null ? other : e.getValue();
    }

    public boolean containsKey(Object key) {
        return entry(key) != null;
    }

    public V putIfAbsent(K key, V value) {
        Map.Entry<K, V> e = entry(key);
        if (e == null) {
            return put(key, value);
        }
        V old = e.getValue();
        if (old == null) {
            e.setValue(value);
        }
        return old;
    }

    public V computeIfAbsent(K key, Function<? super K, ? extends V> make) {
        Map.Entry<K, V> e = entry(key);
        if (e != null && e.getValue() != null) {
            return e.getValue();
        }
        V made = make.apply(key);
        if (made != null) {
            put(key, made);
        }
        return made;
    }

    public V merge(K key, V value, BiFunction<? super V, ? super V, ? extends V> join) {
        if (value == null) {
            throw new NullPointerException();
        }
        Map.Entry<K, V> e = entry(key);
        if (e == null || e.getValue() == null) {
            put(key, value);
            return value;
        }
        V made = join.apply(e.getValue(), value);
        return settled(e, made);
    }

    private V settled(Map.Entry<K, V> e, V made) {
        if (made == null) {
            take(e.getKey());
        } else {
            e.setValue(made);
        }
        return made;
    }

    public V computeIfPresent(K key, BiFunction<? super K, ? super V, ? extends V> change) {
        Map.Entry<K, V> e = entry(key);
        return e == null || e.getValue() == null ? null : settled(e, change.apply(key, e.getValue()));
    }

    public V replace(K key, V value) {
        Map.Entry<K, V> e = entry(key);
        return e == null ? null : e.setValue(value);
    }

    public boolean replace(K key, V old, V value) {
        Map.Entry<K, V> e = entry(key);
        if (e == null || !Objects.equals(e.getValue(), old)) {
            return false;
        }
        e.setValue(value);
        return true;
    }

    public boolean remove(Object key, Object value) {
        Map.Entry<K, V> e = entry(key);
        if (e == null || !Objects.equals(e.getValue(), value)) {
            return false;
        }
        take(key);
        return true;
    }

    Iterator<Map.Entry<K, V>> walk() {
        return entries();
    }

    public Set<Map.Entry<K, V>> entrySet() {
        return new Entries();
    }

    private final class Entries extends AbstractSet<Map.Entry<K, V>> {
        Entries() {
        }

        public int size() {
            return EntryMap.this.size();
        }

        public boolean contains(Object o) {
            if (!(o instanceof Map.Entry)) {
                return false;
            }
            Map.Entry<K, V> e = entryOrNone(((Map.Entry<?, ?>) o).getKey());
            return e != null && e.equals(o);
        }

        public boolean remove(Object o) {
            if (!contains(o)) {
                return false;
            }
            take(((Map.Entry<?, ?>) o).getKey());
            return true;
        }

        public void clear() {
            EntryMap.this.clear();
        }

        public Iterator<Map.Entry<K, V>> iterator() {
            return entries();
        }
    }
}
