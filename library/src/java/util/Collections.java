package java.util;

public class Collections {
    public static final List EMPTY_LIST = new Copies<Object>(0, null);
    public static final Set EMPTY_SET = new FixedSet<Object>(new HashSet<Object>());
    public static final Map EMPTY_MAP = new FixedMap<Object, Object>(new HashMap<Object, Object>());

    private Collections() {
    }

    // ---- lists in place

    public static <T extends Comparable<? super T>> void sort(List<T> list) {
        list.sort(null);
    }

    public static <T> void sort(List<T> list, Comparator<? super T> order) {
        list.sort(order);
    }

    public static void reverse(List<?> list) {
        for (int i = 0, j = list.size() - 1; i < j; i++, j--) {
            swap(list, i, j);
        }
    }

    public static void swap(List<?> list, int i, int j) {
        List<Object> l = (List<Object>) list;
        l.set(i, l.set(j, l.get(i)));
    }

    /** With the seed that every Random has that is given none. */
    public static void shuffle(List<?> list) {
        shuffle(list, new Random());
    }

    public static void shuffle(List<?> list, Random random) {
        for (int i = list.size(); i > 1; i--) {
            swap(list, i - 1, random.nextInt(i));
        }
    }

    public static void rotate(List<?> list, int distance) {
        int n = list.size();
        if (n > 0) {
            int by = Math.floorMod(distance, n);
            reverse(list.subList(0, n - by));
            reverse(list.subList(n - by, n));
            reverse(list);
        }
    }

    public static <T> void fill(List<? super T> list, T value) {
        for (int i = 0; i < list.size(); i++) {
            list.set(i, value);
        }
    }

    public static <T> void copy(List<? super T> to, List<? extends T> from) {
        if (from.size() > to.size()) {
            throw new IndexOutOfBoundsException("Source does not fit in dest");
        }
        for (int i = 0; i < from.size(); i++) {
            to.set(i, from.get(i));
        }
    }

    public static <T> boolean replaceAll(List<T> list, T old, T by) {
        boolean changed = false;
        for (int i = 0; i < list.size(); i++) {
            if (Objects.equals(old, list.get(i))) {
                list.set(i, by);
                changed = true;
            }
        }
        return changed;
    }

    // ---- questions

    private static <T> int compare(Comparator<? super T> order, T a, T b) {
        return order == null ? ((Comparable<Object>) a).compareTo(b) : order.compare(a, b);
    }

    public static <T extends Object & Comparable<? super T>> T max(Collection<? extends T> c) {
        return max(c, null);
    }

    public static <T> T max(Collection<? extends T> c, Comparator<? super T> order) {
        Iterator<? extends T> i = c.iterator();
        T best = i.next();
        while (i.hasNext()) {
            T t = i.next();
            if (Collections.<T>compare(order, t, best) > 0) {
                best = t;
            }
        }
        return best;
    }

    public static <T extends Object & Comparable<? super T>> T min(Collection<? extends T> c) {
        return min(c, null);
    }

    public static <T> T min(Collection<? extends T> c, Comparator<? super T> order) {
        Iterator<? extends T> i = c.iterator();
        T best = i.next();
        while (i.hasNext()) {
            T t = i.next();
            if (Collections.<T>compare(order, t, best) < 0) {
                best = t;
            }
        }
        return best;
    }

    public static <T> int binarySearch(List<? extends Comparable<? super T>> list, T key) {
        List<T> l = (List<T>) list;
        return binarySearch(l, key, null);
    }

    public static <T> int binarySearch(List<? extends T> list, T key, Comparator<? super T> order) {
        int low = 0;
        int high = list.size() - 1;
        while (low <= high) {
            int middle = low + high >>> 1;
            int c = Collections.<T>compare(order, list.get(middle), key);
            if (c < 0) {
                low = middle + 1;
            } else if (c > 0) {
                high = middle - 1;
            } else {
                return middle;
            }
        }
        return -(low + 1);
    }

    public static int frequency(Collection<?> c, Object o) {
        int n = 0;
        for (Object x : c) {
            if (Objects.equals(o, x)) {
                n++;
            }
        }
        return n;
    }

    public static boolean disjoint(Collection<?> a, Collection<?> b) {
        for (Object o : a) {
            if (b.contains(o)) {
                return false;
            }
        }
        return true;
    }

    public static int indexOfSubList(List<?> list, List<?> part) {
        for (int i = 0; i + part.size() <= list.size(); i++) {
            if (list.subList(i, i + part.size()).equals(part)) {
                return i;
            }
        }
        return -1;
    }

    public static int lastIndexOfSubList(List<?> list, List<?> part) {
        for (int i = list.size() - part.size(); i >= 0; i--) {
            if (list.subList(i, i + part.size()).equals(part)) {
                return i;
            }
        }
        return -1;
    }

    // ---- orders

    public static <T> Comparator<T> reverseOrder() {
        Comparator<T> natural = (Comparator<T>) (Comparator<?>) new Comparators.Natural<Integer>();
        return new Comparators.Reverse<T>(natural);
    }

    public static <T> Comparator<T> reverseOrder(Comparator<T> order) {
        return order == null ? Collections.<T>reverseOrder() : order.reversed();
    }

    // ---- made of others

    public static <T> boolean addAll(Collection<? super T> c, T... items) {
        boolean changed = false;
        for (T t : items) {
            if (c.add(t)) {
                changed = true;
            }
        }
        return changed;
    }

    public static <T> List<T> nCopies(int n, T t) {
        if (n < 0) {
            throw new IllegalArgumentException("List length = " + n);
        }
        return new Copies<T>(n, t);
    }

    public static <T> Set<T> newSetFromMap(Map<T, Boolean> map) {
        return new SetOfMap<T>(map);
    }

    public static <T> ArrayList<T> list(Enumeration<T> e) {
        ArrayList<T> all = new ArrayList<T>();
        while (e.hasMoreElements()) {
            all.add(e.nextElement());
        }
        return all;
    }

    public static <T> Enumeration<T> enumeration(Collection<T> c) {
        return new Walk<T>(c.iterator());
    }

    // ---- that can't be changed

    public static <T> List<T> emptyList() {
        return (List<T>) EMPTY_LIST;
    }

    public static <T> Set<T> emptySet() {
        return (Set<T>) EMPTY_SET;
    }

    public static <K, V> Map<K, V> emptyMap() {
        return (Map<K, V>) EMPTY_MAP;
    }

    public static <T> Iterator<T> emptyIterator() {
        return Collections.<T>emptyList().iterator();
    }

    public static <T> SortedSet<T> emptySortedSet() {
        return unmodifiableSortedSet(new TreeSet<T>());
    }

    public static <K, V> SortedMap<K, V> emptySortedMap() {
        return unmodifiableSortedMap(new TreeMap<K, V>());
    }

    public static <T> List<T> singletonList(T t) {
        return new Copies<T>(1, t);
    }

    public static <T> Set<T> singleton(T t) {
        Set<T> one = new HashSet<T>();
        one.add(t);
        return new FixedSet<T>(one);
    }

    public static <K, V> Map<K, V> singletonMap(K key, V value) {
        Map<K, V> one = new HashMap<K, V>();
        one.put(key, value);
        return new FixedMap<K, V>(one);
    }

    public static <T> Collection<T> unmodifiableCollection(Collection<? extends T> c) {
        return new Fixed<T>(c);
    }

    public static <T> List<T> unmodifiableList(List<? extends T> list) {
        return new FixedList<T>(list);
    }

    public static <T> Set<T> unmodifiableSet(Set<? extends T> set) {
        return new FixedSet<T>(set);
    }

    public static <K, V> Map<K, V> unmodifiableMap(Map<? extends K, ? extends V> map) {
        return new FixedMap<K, V>(map);
    }

    public static <T> SortedSet<T> unmodifiableSortedSet(SortedSet<T> set) {
        return new FixedSortedSet<T>(set);
    }

    public static <K, V> SortedMap<K, V> unmodifiableSortedMap(SortedMap<K, ? extends V> map) {
        return new FixedSortedMap<K, V>((SortedMap<K, V>) map);
    }

    // ---- for several threads: there is one

    public static <T> Collection<T> synchronizedCollection(Collection<T> c) {
        return c;
    }

    public static <T> List<T> synchronizedList(List<T> list) {
        return list;
    }

    public static <T> Set<T> synchronizedSet(Set<T> set) {
        return set;
    }

    public static <K, V> Map<K, V> synchronizedMap(Map<K, V> map) {
        return map;
    }

    public static <T> SortedSet<T> synchronizedSortedSet(SortedSet<T> set) {
        return set;
    }

    public static <K, V> SortedMap<K, V> synchronizedSortedMap(SortedMap<K, V> map) {
        return map;
    }

    private static final class Walk<T> implements Iterator<T>, Enumeration<T> {
        private final Iterator<? extends T> of;

        Walk(Iterator<? extends T> of) {
            this.of = of;
        }

        public boolean hasNext() {
            return of.hasNext();
        }

        public T next() {
            return of.next();
        }

        public void remove() {
            throw new UnsupportedOperationException();
        }

        public boolean hasMoreElements() {
            return of.hasNext();
        }

        public T nextElement() {
            return of.next();
        }
    }

    private static final class FixedSortedSet<T> extends FixedSet<T> implements SortedSet<T> {
        private final SortedSet<T> sorted;

        FixedSortedSet(SortedSet<T> of) {
            super(of);
            sorted = of;
        }

        public Comparator<? super T> comparator() {
            return sorted.comparator();
        }

        public T first() {
            return sorted.first();
        }

        public T last() {
            return sorted.last();
        }

        public SortedSet<T> headSet(T to) {
            return new FixedSortedSet<T>(sorted.headSet(to));
        }

        public SortedSet<T> tailSet(T from) {
            return new FixedSortedSet<T>(sorted.tailSet(from));
        }

        public SortedSet<T> subSet(T from, T to) {
            return new FixedSortedSet<T>(sorted.subSet(from, to));
        }
    }

    private static final class FixedSortedMap<K, V> extends FixedMap<K, V> implements SortedMap<K, V> {
        private final SortedMap<K, V> sorted;

        FixedSortedMap(SortedMap<K, V> of) {
            super(of);
            sorted = of;
        }

        public Comparator<? super K> comparator() {
            return sorted.comparator();
        }

        public K firstKey() {
            return sorted.firstKey();
        }

        public K lastKey() {
            return sorted.lastKey();
        }

        public SortedMap<K, V> headMap(K to) {
            return new FixedSortedMap<K, V>(sorted.headMap(to));
        }

        public SortedMap<K, V> tailMap(K from) {
            return new FixedSortedMap<K, V>(sorted.tailMap(from));
        }

        public SortedMap<K, V> subMap(K from, K to) {
            return new FixedSortedMap<K, V>(sorted.subMap(from, to));
        }
    }

    private static final class Copies<T> extends AbstractList<T> implements RandomAccess {
        private final int count;
        private final T item;

        Copies(int count, T item) {
            this.count = count;
            this.item = item;
        }

        public int size() {
            return count;
        }

        public T get(int index) {
            if (index < 0 || index >= count) {
                throw new IndexOutOfBoundsException("Index: " + index + (count == 0 ? "" : ", Size: " + count));
            }
            return item;
        }

        public void sort(Comparator<? super T> order) {
            if (count > 1) {
                super.sort(order);
            }
        }
    }

    private static final class SetOfMap<T> extends AbstractSet<T> {
        private final Map<T, Boolean> map;

        SetOfMap(Map<T, Boolean> map) {
            this.map = map;
        }

        public int size() {
            return map.size();
        }

        public boolean contains(Object o) {
            return map.containsKey(o);
        }

        public boolean add(T t) {
            return map.put(t, true) == null;
        }

        public boolean remove(Object o) {
            return map.remove(o) != null;
        }

        public void clear() {
            map.clear();
        }

        public Iterator<T> iterator() {
            return map.keySet().iterator();
        }
    }

    private static class Fixed<T> extends AbstractCollection<T> {
        private final Collection<? extends T> of;

        Fixed(Collection<? extends T> of) {
            this.of = Objects.requireNonNull(of);
        }

        public int size() {
            return of.size();
        }

        public boolean contains(Object o) {
            return of.contains(o);
        }

        public boolean remove(Object o) {
            throw new UnsupportedOperationException();
        }

        public void clear() {
            throw new UnsupportedOperationException();
        }

        public Iterator<T> iterator() {
            return new Walk<T>(of.iterator());
        }

        public String toString() {
            return of.toString();
        }
    }

    private static class FixedSet<T> extends Fixed<T> implements Set<T> {
        FixedSet(Set<? extends T> of) {
            super(of);
        }

        public boolean equals(Object o) {
            return o == this || o instanceof Set && ((Set<?>) o).size() == size() && containsAll((Set<?>) o);
        }

        public int hashCode() {
            int h = 0;
            for (T t : this) {
                h += Objects.hashCode(t);
            }
            return h;
        }
    }

    private static final class FixedList<T> extends AbstractList<T> implements RandomAccess {
        private final List<? extends T> of;

        FixedList(List<? extends T> of) {
            this.of = Objects.requireNonNull(of);
        }

        public int size() {
            return of.size();
        }

        public T get(int index) {
            return of.get(index);
        }

        public boolean remove(Object o) {
            throw new UnsupportedOperationException();
        }

        public void clear() {
            throw new UnsupportedOperationException();
        }

        public void sort(Comparator<? super T> order) {
            throw new UnsupportedOperationException();
        }

        public Iterator<T> iterator() {
            return new Walk<T>(of.iterator());
        }
    }

    private static class FixedMap<K, V> extends EntryMap<K, V> {
        private final Map<? extends K, ? extends V> of;

        FixedMap(Map<? extends K, ? extends V> of) {
            this.of = Objects.requireNonNull(of);
        }

        public int size() {
            return of.size();
        }

        Map.Entry<K, V> entry(Object key) {
            return of.containsKey(key) ? new AbstractMap.SimpleImmutableEntry<K, V>((K) key, of.get(key)) : null;
        }

        Iterator<Map.Entry<K, V>> entries() {
            final Iterator<?> i = of.entrySet().iterator();
            return new Iterator<Map.Entry<K, V>>() {
                public boolean hasNext() {
                    return i.hasNext();
                }

                public Map.Entry<K, V> next() {
                    return new AbstractMap.SimpleImmutableEntry<K, V>((Map.Entry<K, V>) i.next());
                }
            };
        }

        public V remove(Object key) {
            throw new UnsupportedOperationException();
        }

        public void clear() {
            throw new UnsupportedOperationException();
        }

        public V putIfAbsent(K key, V value) {
            throw new UnsupportedOperationException();
        }

        public void putAll(Map<? extends K, ? extends V> map) {
            throw new UnsupportedOperationException();
        }

        public String toString() {
            return of.toString();
        }
    }
}
