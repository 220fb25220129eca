import java.util.*;

/** A search tree that stays balanced, generic in its keys and values, with an iterator and what is asked of such trees. */
public class Trees {
    static class Tree<K extends Comparable<? super K>, V> implements Iterable<Tree.Node<K, V>> {
        static class Node<K, V> {
            final K key;
            V value;
            private Node<K, V> left, right;
            private int height = 1;

            Node(K key, V value) {
                this.key = key;
                this.value = value;
            }

            @Override
            public String toString() {
                return key + "=" + value;
            }
        }

        private Node<K, V> root;
        private int size, turns;

        V put(K key, V value) {
            Node<K, V> found = find(key);
            if (found != null) {
                V old = found.value;
                found.value = value;
                return old;
            }
            root = put(root, key, value);
            size++;
            return null;
        }

        private Node<K, V> put(Node<K, V> at, K key, V value) {
            if (at == null) return new Node<>(key, value);
            if (key.compareTo(at.key) < 0) at.left = put(at.left, key, value);
            else at.right = put(at.right, key, value);
            return balanced(at);
        }

        boolean remove(K key) {
            if (find(key) == null) return false;
            root = remove(root, key);
            size--;
            return true;
        }

        private Node<K, V> remove(Node<K, V> at, K key) {
            int order = key.compareTo(at.key);
            if (order < 0) {
                at.left = remove(at.left, key);
            } else if (order > 0) {
                at.right = remove(at.right, key);
            } else {
                if (at.left == null) return at.right;
                if (at.right == null) return at.left;
                Node<K, V> least = at.right;
                while (least.left != null) least = least.left;
                Node<K, V> right = remove(at.right, least.key), made = new Node<>(least.key, least.value);
                made.left = at.left;
                made.right = right;
                at = made;
            }
            return balanced(at);
        }

        private Node<K, V> find(K key) {
            Node<K, V> at = root;
            for (int order; at != null && (order = key.compareTo(at.key)) != 0; ) at = order < 0 ? at.left : at.right;
            return at;
        }

        V get(K key) {
            Node<K, V> found = find(key);
            return found == null ? null : found.value;
        }

        private int height(Node<K, V> at) { return at == null ? 0 : at.height; }

        private int lean(Node<K, V> at) { return height(at.left) - height(at.right); }

        private Node<K, V> balanced(Node<K, V> at) {
            at.height = 1 + Math.max(height(at.left), height(at.right));
            if (lean(at) > 1) {
                if (lean(at.left) < 0) at.left = turnedLeft(at.left);
                return turnedRight(at);
            }
            if (lean(at) < -1) {
                if (lean(at.right) > 0) at.right = turnedRight(at.right);
                return turnedLeft(at);
            }
            return at;
        }

        private Node<K, V> turnedRight(Node<K, V> at) {
            Node<K, V> up = at.left;
            at.left = up.right;
            up.right = at;
            at.height = 1 + Math.max(height(at.left), height(at.right));
            up.height = 1 + Math.max(height(up.left), height(up.right));
            turns++;
            return up;
        }

        private Node<K, V> turnedLeft(Node<K, V> at) {
            Node<K, V> up = at.right;
            at.right = up.left;
            up.left = at;
            at.height = 1 + Math.max(height(at.left), height(at.right));
            up.height = 1 + Math.max(height(up.left), height(up.right));
            turns++;
            return up;
        }

        @Override
        public Iterator<Node<K, V>> iterator() {
            return new Walk();
        }

        private class Walk implements Iterator<Node<K, V>> {
            private final Deque<Node<K, V>> open = new ArrayDeque<>();

            Walk() { down(root); }

            private void down(Node<K, V> at) {
                for (; at != null; at = at.left) open.push(at);
            }

            @Override public boolean hasNext() { return !open.isEmpty(); }

            @Override
            public Node<K, V> next() {
                Node<K, V> found = open.pop();
                down(found.right);
                return found;
            }
        }

        List<List<K>> levels() {
            List<List<K>> levels = new ArrayList<>();
            Queue<Node<K, V>> row = new LinkedList<>();
            if (root != null) row.add(root);
            while (!row.isEmpty()) {
                List<K> level = new ArrayList<>();
                for (int left = row.size(); left > 0; left--) {
                    Node<K, V> at = row.remove();
                    level.add(at.key);
                    if (at.left != null) row.add(at.left);
                    if (at.right != null) row.add(at.right);
                }
                levels.add(level);
            }
            return levels;
        }

        void draw(StringBuilder to) { draw(root, "", to); }

        private void draw(Node<K, V> at, String indent, StringBuilder to) {
            if (at == null) return;
            draw(at.right, indent + "    ", to);
            to.append(indent).append(at.key).append('\n');
            draw(at.left, indent + "    ", to);
        }
    }

    public static void main(String[] args) {
        Tree<Integer, String> tree = new Tree<>();
        for (int i = 1; i <= 15; i++) tree.put(i, Integer.toString(i * i, 16));
        System.out.println(tree.levels() + " height " + tree.height(tree.root) + ", turns " + tree.turns);
        System.out.println(tree.put(7, "seven") + " " + tree.get(7) + " " + tree.get(99) + " " + tree.size);
        for (int i : new int[] {8, 4, 12, 1, 2, 3, 99}) System.out.print(tree.remove(i) + " ");
        System.out.println(tree.levels() + " " + tree.size);
        StringBuilder drawn = new StringBuilder();
        tree.draw(drawn);
        System.out.print(drawn);
        for (Tree.Node<Integer, String> it : tree) System.out.print(it + " ");
        System.out.println();
        Tree<String, List<Integer>> index = new Tree<>();
        String text = "the tree of the words that the tree of the numbers has below the root";
        int at = 0;
        for (String word : text.split(" ")) {
            List<Integer> places = index.get(word);
            if (places == null) index.put(word, places = new ArrayList<>());
            places.add(at++);
        }
        for (Tree.Node<String, List<Integer>> it : index) if (it.value.size() > 1) System.out.print(it + " ");
        System.out.println(index.size + " " + index.levels());
        Random random = new Random(77);
        Tree<Long, Boolean> large = new Tree<>();
        TreeMap<Long, Boolean> other = new TreeMap<>();
        for (int i = 0; i < 300; i++) {
            long key = random.nextInt(200);
            if (random.nextBoolean()) {
                large.put(key, key % 2 == 0);
                other.put(key, key % 2 == 0);
            } else if (large.remove(key) != (other.remove(key) != null)) {
                System.out.println("they differ at " + key);
            }
        }
        List<Long> keys = new ArrayList<>();
        for (Tree.Node<Long, Boolean> it : large) keys.add(it.key);
        System.out.println(keys.equals(new ArrayList<>(other.keySet())) + " " + keys.size() + " " + large.height(large.root) + " "
            + other.ceilingKey(50L));
    }
}
