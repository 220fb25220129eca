package java.util.concurrent;

import java.util.Collection;
import java.util.Collections;
import java.util.Enumeration;
import java.util.Map;
import java.util.Set;
import java.util.SharedMap;
import java.util.View;

public class ConcurrentHashMap<K, V> extends SharedMap<K, V> implements ConcurrentMap<K, V>, java.io.Serializable {
    public ConcurrentHashMap() {
        super(0);
    }

    public ConcurrentHashMap(int capacity) {
        super(lengthFor(capacity));
    }

    public ConcurrentHashMap(Map<? extends K, ? extends V> map) {
        super(map);
    }

    public long mappingCount() {
        return size();
    }

    public boolean contains(Object value) {
        return containsValue(value);
    }

    public Enumeration<K> keys() {
        return Collections.enumeration(keySet());
    }

    public Enumeration<V> elements() {
        return Collections.enumeration(values());
    }

    public KeySetView<K, V> keySet() {
        return new KeySetView<K, V>(this, super.keySet(), null);
    }

    public KeySetView<K, V> keySet(V value) {
        if (value == null) {
            throw new NullPointerException();
        }
        return new KeySetView<K, V>(this, super.keySet(), value);
    }

    public static <T> KeySetView<T, Boolean> newKeySet() {
        return new ConcurrentHashMap<T, Boolean>().keySet(true);
    }

    public static <T> KeySetView<T, Boolean> newKeySet(int capacity) {
        return new ConcurrentHashMap<T, Boolean>(capacity).keySet(true);
    }

    public static class KeySetView<K, V> extends View<K> implements Set<K>, java.io.Serializable {
        private final ConcurrentHashMap<K, V> map;
        private final V value;

        KeySetView(ConcurrentHashMap<K, V> map, Set<K> keys, V value) {
            super(keys);
            this.map = map;
            this.value = value;
        }

        public ConcurrentHashMap<K, V> getMap() {
            return map;
        }

        public V getMappedValue() {
            return value;
        }

        public boolean add(K key) {
            if (value == null) {
                throw new UnsupportedOperationException();
            }
            return map.putIfAbsent(key, value) == null;
        }

        public boolean addAll(Collection<? extends K> c) {
            int before = map.size();
            for (K key : c) {
                add(key);
            }
            return map.size() > before;
        }
    }
}
