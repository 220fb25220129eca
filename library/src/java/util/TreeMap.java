package java.util;

/**
 * A map in the order of its keys: a binary search tree that is a heap by priorities, which come from a fixed sequence, so that its depth is
 * logarithmic for all but a guest that chooses its keys against itself.
 */
public class TreeMap<K, V> extends SortedEntryMap<K, V> implements NavigableMap<K, V>, Cloneable, java.io.Serializable {
    private final Comparator<? super K> order;
    private Node<K, V> root;
    private int count;
    private int changes;
    private int seed = 1;

    private static final class Node<K, V> extends Maps.Entry<K, V> {
        final int priority;
        Node<K, V> parent;
        Node<K, V> left;
        Node<K, V> right;

        Node(K key, V value, int priority, Node<K, V> parent) {
            super(key, value);
            this.priority = priority;
            this.parent = parent;
        }
    }

    public TreeMap() {
        this.order = null;
    }

    public TreeMap(Comparator<? super K> order) {
        this.order = order;
    }

    public TreeMap(Map<? extends K, ? extends V> map) {
        this.order = null;
        putAll(map);
    }

    public TreeMap(SortedMap<K, ? extends V> map) {
        this.order = map.comparator();
        putAll(map);
    }

    private int compare(Object a, Object b) {
        return order == null ? ((Comparable<Object>) a).compareTo(b) : order.compare((K) a, (K) b);
    }

    public Comparator<? super K> comparator() {
        return order;
    }

    public int size() {
        return count;
    }

    // ---- finding

    Node<K, V> entry(Object key) {
        if (order == null && key == null) {
            throw new NullPointerException();
        }
        Node<K, V> n = root;
        while (n != null) {
            int c = compare(key, n.key);
            if (c == 0) {
                return n;
            }
            n = c < 0 ? n.left : n.right;
        }
        return null;
    }

    Node<K, V> first() {
        return root == null ? null : leftmost(root);
    }

    Node<K, V> last() {
        return root == null ? null : rightmost(root);
    }

    private static <K, V> Node<K, V> leftmost(Node<K, V> of) {
        Node<K, V> n = of;
        while (n.left != null) {
            n = n.left;
        }
        return n;
    }

    private static <K, V> Node<K, V> rightmost(Node<K, V> of) {
        Node<K, V> n = of;
        while (n.right != null) {
            n = n.right;
        }
        return n;
    }

    Node<K, V> before(K key, boolean orAt) {
        Node<K, V> best = null;
        Node<K, V> n = root;
        while (n != null) {
            int c = compare(n.key, key);
            if (c < 0 || orAt && c == 0) {
                best = n;
                n = n.right;
            } else {
                n = n.left;
            }
        }
        return best;
    }

    Node<K, V> behind(K key, boolean orAt) {
        Node<K, V> best = null;
        Node<K, V> n = root;
        while (n != null) {
            int c = compare(n.key, key);
            if (c > 0 || orAt && c == 0) {
                best = n;
                n = n.left;
            } else {
                n = n.right;
            }
        }
        return best;
    }

    private static <K, V> Node<K, V> next(Node<K, V> of) {
        if (of.right != null) {
            return leftmost(of.right);
        }
        Node<K, V> n = of;
        while (n.parent != null && n == n.parent.right) {
            n = n.parent;
        }
        return n.parent;
    }

    private static <K, V> Node<K, V> previous(Node<K, V> of) {
        if (of.left != null) {
            return rightmost(of.left);
        }
        Node<K, V> n = of;
        while (n.parent != null && n == n.parent.left) {
            n = n.parent;
        }
        return n.parent;
    }

    // ---- changes

    private void replace(Node<K, V> n, Node<K, V> by) {
        if (n.parent == null) {
            root = by;
        } else if (n.parent.left == n) {
            n.parent.left = by;
        } else {
            n.parent.right = by;
        }
        if (by != null) {
            by.parent = n.parent;
        }
    }

    /** A node takes the place of its parent, which goes below it. */
    private void rotate(Node<K, V> n) {
        Node<K, V> parent = n.parent;
        replace(parent, n);
        Node<K, V> moved = parent.left == n ? n.right : n.left;
        if (parent.left == n) {
            parent.left = moved;
            n.right = parent;
        } else {
            parent.right = moved;
            n.left = parent;
        }
        parent.parent = n;
        if (moved != null) {
            moved.parent = parent;
        }
    }

    public V put(K key, V value) {
        Node<K, V> parent = null;
        Node<K, V> n = root;
        int c = n == null ? compare(key, key) : 0;
        while (n != null) {
            parent = n;
            c = compare(key, n.key);
            if (c == 0) {
                return n.setValue(value);
            }
            n = c < 0 ? n.left : n.right;
        }
        seed = seed * 1103515245 + 12345;
        n = new Node<K, V>(key, value, seed >>> 1, parent);
        if (parent == null) {
            root = n;
        } else if (c < 0) {
            parent.left = n;
        } else {
            parent.right = n;
        }
        while (n.parent != null && n.parent.priority < n.priority) {
            rotate(n);
        }
        count++;
        changes++;
        return null;
    }

    public V remove(Object key) {
        Node<K, V> n = entry(key);
        if (n == null) {
            return null;
        }
        delete(n);
        return n.value;
    }

    private void delete(Node<K, V> n) {
        while (n.left != null && n.right != null) {
            rotate(n.left.priority > n.right.priority ? n.left : n.right);
        }
        replace(n, n.left != null ? n.left : n.right);
        count--;
        changes++;
    }

    public void clear() {
        root = null;
        count = 0;
        changes++;
    }

    public Object clone() {
        return new TreeMap<K, V>((SortedMap<K, V>) this);
    }

    // ---- parts

    public NavigableMap<K, V> descendingMap() {
        return new Part(false, null, false, false, null, false, true);
    }

    public NavigableMap<K, V> headMap(K to, boolean withTo) {
        compare(to, to);
        return new Part(false, null, false, true, to, withTo, false);
    }

    public NavigableMap<K, V> tailMap(K from, boolean withFrom) {
        compare(from, from);
        return new Part(true, from, withFrom, false, null, false, false);
    }

    public NavigableMap<K, V> subMap(K from, boolean withFrom, K to, boolean withTo) {
        if (compare(from, to) > 0) {
            throw new IllegalArgumentException("fromKey > toKey");
        }
        return new Part(true, from, withFrom, true, to, withTo, false);
    }

    Iterator<Map.Entry<K, V>> entries() {
        return new Walk(first(), null, false);
    }

    /** Along nodes from one on, up to another or to the end. */
    private final class Walk implements Iterator<Map.Entry<K, V>> {
        private Node<K, V> next;
        private final Node<K, V> end;
        private final boolean down;
        private Node<K, V> given;
        private int expected = changes;

        Walk(Node<K, V> next, Node<K, V> end, boolean down) {
            this.next = next;
            this.end = end;
            this.down = down;
        }

        public boolean hasNext() {
            return next != end && next != null;
        }

        public Map.Entry<K, V> next() {
            if (!hasNext()) {
                throw new NoSuchElementException();
            }
            if (changes != expected) {
                throw new ConcurrentModificationException();
            }
            given = next;
            next = down ? previous(next) : TreeMap.next(next);
            return given;
        }

        public void remove() {
            if (given == null) {
                throw new IllegalStateException();
            }
            if (changes != expected) {
                throw new ConcurrentModificationException();
            }
            delete(given);
            given = null;
            expected = changes;
        }
    }

    /** The entries of the map between two bounds, in its order or in the reverse. What changes here changes there. */
    private final class Part extends SortedEntryMap<K, V> {
        private final boolean hasLow;
        private final K low;
        private final boolean withLow;
        private final boolean hasHigh;
        private final K high;
        private final boolean withHigh;
        private final boolean down;

        Part(boolean hasLow, K low, boolean withLow, boolean hasHigh, K high, boolean withHigh, boolean down) {
            this.hasLow = hasLow;
            this.low = low;
            this.withLow = withLow;
            this.hasHigh = hasHigh;
            this.high = high;
            this.withHigh = withHigh;
            this.down = down;
        }

        private boolean isTooLow(Object key) {
            int c = hasLow ? compare(key, low) : 1;
            return c < 0 || c == 0 && !withLow;
        }

        private boolean isTooHigh(Object key) {
            int c = hasHigh ? compare(key, high) : -1;
            return c > 0 || c == 0 && !withHigh;
        }

        private boolean has(Object key) {
            return !isTooLow(key) && !isTooHigh(key);
        }

        private Node<K, V> within(Node<K, V> n) {
            return n != null && has(n.key) ? n : null;
        }

        private Node<K, V> lowest() {
            return within(hasLow ? TreeMap.this.behind(low, withLow) : TreeMap.this.first());
        }

        private Node<K, V> highest() {
            return within(hasHigh ? TreeMap.this.before(high, withHigh) : TreeMap.this.last());
        }

        private Node<K, V> below(K key, boolean orAt) {
            return isTooHigh(key) ? highest() : within(TreeMap.this.before(key, orAt));
        }

        private Node<K, V> above(K key, boolean orAt) {
            return isTooLow(key) ? lowest() : within(TreeMap.this.behind(key, orAt));
        }

        Node<K, V> first() {
            return down ? highest() : lowest();
        }

        Node<K, V> last() {
            return down ? lowest() : highest();
        }

        Node<K, V> before(K key, boolean orAt) {
            return down ? above(key, orAt) : below(key, orAt);
        }

        Node<K, V> behind(K key, boolean orAt) {
            return down ? below(key, orAt) : above(key, orAt);
        }

        Node<K, V> entry(Object key) {
            return has(key) ? TreeMap.this.entry(key) : null;
        }

        public Comparator<? super K> comparator() {
            return down ? Collections.<K>reverseOrder((Comparator<K>) order) : order;
        }

        public int size() {
            if (!hasLow && !hasHigh) {
                return count;
            }
            int n = 0;
            for (Iterator<Map.Entry<K, V>> i = entries(); i.hasNext(); i.next()) {
                n++;
            }
            return n;
        }

        public boolean isEmpty() {
            return lowest() == null;
        }

        public V put(K key, V value) {
            if (!has(key)) {
                throw new IllegalArgumentException("key out of range");
            }
            return TreeMap.this.put(key, value);
        }

        public V remove(Object key) {
            return has(key) ? TreeMap.this.remove(key) : null;
        }

        Iterator<Map.Entry<K, V>> entries() {
            Node<K, V> from = first();
            Node<K, V> to = from == null ? null : last();
            return new Walk(from, to == null ? null : down ? previous(to) : TreeMap.next(to), down);
        }

        public void clear() {
            Iterator<Map.Entry<K, V>> i = entries();
            while (i.hasNext()) {
                i.next();
                i.remove();
            }
        }

        // ---- parts of it

        public NavigableMap<K, V> descendingMap() {
            return new Part(hasLow, low, withLow, hasHigh, high, withHigh, !down);
        }

        /** A key may be a bound: it is in range, or is the bound already and needn't be there. */
        private void check(K key, boolean with, String name) {
            boolean isLow = hasLow && compare(key, low) == 0;
            boolean isHigh = hasHigh && compare(key, high) == 0;
            if (!has(key) && !(!with && (isLow || isHigh))) {
                throw new IllegalArgumentException(name + " out of range");
            }
        }

        private NavigableMap<K, V> upTo(K key, boolean with) {
            return new Part(hasLow, low, withLow, true, key, with, down);
        }

        private NavigableMap<K, V> from(K key, boolean with) {
            return new Part(true, key, with, hasHigh, high, withHigh, down);
        }

        public NavigableMap<K, V> headMap(K to, boolean withTo) {
            check(to, withTo, "toKey");
            return down ? from(to, withTo) : upTo(to, withTo);
        }

        public NavigableMap<K, V> tailMap(K from, boolean withFrom) {
            check(from, withFrom, "fromKey");
            return down ? upTo(from, withFrom) : from(from, withFrom);
        }

        public NavigableMap<K, V> subMap(K from, boolean withFrom, K to, boolean withTo) {
            check(from, withFrom, "fromKey");
            check(to, withTo, "toKey");
            int c = compare(from, to);
            if (down ? c < 0 : c > 0) {
                throw new IllegalArgumentException("fromKey > toKey");
            }
            return down ? new Part(true, to, withTo, true, from, withFrom, true) : new Part(true, from, withFrom, true, to, withTo, false);
        }
    }
}
