package java.util;

/** What maps share. */
final class Maps {
    private Maps() {
    }

    static class Entry<K, V> implements Map.Entry<K, V> {
        final K key;
        V value;

        Entry(K key, V value) {
            this.key = key;
            this.value = value;
        }

        public K getKey() {
            return key;
        }

        public V getValue() {
            return value;
        }

        public V setValue(V value) {
            V old = this.value;
            this.value = value;
            return old;
        }

        public boolean equals(Object o) {
            return o instanceof Map.Entry && Objects.equals(key, ((Map.Entry<?, ?>) o).getKey())
                && Objects.equals(value, ((Map.Entry<?, ?>) o).getValue());
        }

        public int hashCode() {
            return Objects.hashCode(key) ^ Objects.hashCode(value);
        }

        public String toString() {
            return key + "=" + value;
        }
    }

    /** The keys of a map, by its entries. */
    static class Keys<K, V> extends AbstractSet<K> {
        private final AbstractMap<K, V> map;

        Keys(AbstractMap<K, V> map) {
            this.map = map;
        }

        public int size() {
            return map.size();
        }

        public boolean contains(Object o) {
            return map.containsKey(o);
        }

        public boolean remove(Object o) {
            int before = map.size();
            map.take(o);
            return map.size() < before;
        }

        public void clear() {
            map.clear();
        }

        public Iterator<K> iterator() {
            return new KeyWalk<K, V>(map.walk());
        }
    }

    static final class KeyWalk<K, V> implements Iterator<K> {
        private final Iterator<Map.Entry<K, V>> of;

        KeyWalk(Iterator<Map.Entry<K, V>> of) {
            this.of = of;
        }

        public boolean hasNext() {
            return of.hasNext();
        }

        public K next() {
            return of.next().getKey();
        }

        public void remove() {
            of.remove();
        }
    }

    /** The values of a map, by its entries. */
    static final class Values<K, V> extends AbstractCollection<V> {
        private final AbstractMap<K, V> map;

        Values(AbstractMap<K, V> map) {
            this.map = map;
        }

        public int size() {
            return map.size();
        }

        public boolean contains(Object o) {
            return map.containsValue(o);
        }

        public void clear() {
            map.clear();
        }

        public Iterator<V> iterator() {
            return new ValueWalk<K, V>(map.walk());
        }
    }

    static final class ValueWalk<K, V> implements Iterator<V> {
        private final Iterator<Map.Entry<K, V>> of;

        ValueWalk(Iterator<Map.Entry<K, V>> of) {
            this.of = of;
        }

        public boolean hasNext() {
            return of.hasNext();
        }

        public V next() {
            return of.next().getValue();
        }

        public void remove() {
            of.remove();
        }
    }

    static final class ByKey<K extends Comparable<? super K>, V> implements Comparator<Map.Entry<K, V>> {
        public int compare(Map.Entry<K, V> a, Map.Entry<K, V> b) {
            return a.getKey().compareTo(b.getKey());
        }
    }

    static final class ByValue<K, V extends Comparable<? super V>> implements Comparator<Map.Entry<K, V>> {
        public int compare(Map.Entry<K, V> a, Map.Entry<K, V> b) {
            return a.getValue().compareTo(b.getValue());
        }
    }

    static final class ByKeyIn<K, V> implements Comparator<Map.Entry<K, V>> {
        private final Comparator<? super K> order;

        ByKeyIn(Comparator<? super K> order) {
            this.order = order;
        }

        public int compare(Map.Entry<K, V> a, Map.Entry<K, V> b) {
            return order.compare(a.getKey(), b.getKey());
        }
    }

    static final class ByValueIn<K, V> implements Comparator<Map.Entry<K, V>> {
        private final Comparator<? super V> order;

        ByValueIn(Comparator<? super V> order) {
            this.order = order;
        }

        public int compare(Map.Entry<K, V> a, Map.Entry<K, V> b) {
            return order.compare(a.getValue(), b.getValue());
        }
    }
}
