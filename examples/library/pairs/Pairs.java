import java.util.Iterator;
import java.util.NoSuchElementException;

/** Generic classes and methods, boxes, and an iterator of one's own. */
public class Pairs {
    static class BinaryTree<T extends Comparable<T>> implements Iterable<T> {
        private class Node { T v; Node l, r; Node(T v) { this.v = v; } }
        private Node root;
        private int size;
        boolean add(T v) {
            if (root == null) { root = new Node(v); size++; return true; }
            Node n = root;
            while (true) {
                int c = v.compareTo(n.v);
                if (c == 0) return false;
                if (c < 0) { if (n.l == null) { n.l = new Node(v); size++; return true; } n = n.l; }
                else { if (n.r == null) { n.r = new Node(v); size++; return true; } n = n.r; }
            }
        }
        int height() { return height(root); }
        private int height(Node n) { return n == null ? 0 : 1 + Math.max(height(n.l), height(n.r)); }
        @Override public Iterator<T> iterator() {
            final java.util.Stack<Node> st = new java.util.Stack<>();
            for (Node n = root; n != null; n = n.l) st.push(n);
            return new Iterator<T>() {
                @Override public boolean hasNext() { return !st.isEmpty(); }
                @Override public T next() {
                    if (st.isEmpty()) throw new NoSuchElementException();
                    Node n = st.pop();
                    for (Node m = n.r; m != null; m = m.l) st.push(m);
                    return n.v;
                }
            };
        }
    }
    static class Pair<A, B> {
        private final A a; private final B b;
        Pair(A a, B b) { this.a = a; this.b = b; }
        A first() { return a; }
        B second() { return b; }
        static <X, Y> Pair<X, Y> of(X x, Y y) { return new Pair<X, Y>(x, y); }
        @Override public String toString() { return "(" + a + ", " + b + ")"; }
        @Override public boolean equals(Object o) {
            if (!(o instanceof Pair)) return false;
            Pair<?, ?> p = (Pair<?, ?>) o;
            return a.equals(p.a) && b.equals(p.b);
        }
        @Override public int hashCode() { return a.hashCode() * 31 + b.hashCode(); }
    }
    static <T extends Comparable<T>> T largest(Iterable<T> items) {
        T best = null;
        for (T t : items) if (best == null || t.compareTo(best) > 0) best = t;
        return best;
    }
    public static void main(String[] args) {
        BinaryTree<Integer> t = new BinaryTree<>();
        int[] in = {50, 30, 70, 20, 40, 60, 80, 30};
        for (int x : in) t.add(x);
        for (int x : t) System.out.print(x + " ");
        System.out.println("| size " + t.size + " height " + t.height() + " largest " + largest(t));
        BinaryTree<String> s = new BinaryTree<>();
        for (String w : "to be or not to be that is the question".split(" ")) s.add(w);
        for (String w : s) System.out.print(w + ' ');
        System.out.println();
        Pair<String, Integer> p = Pair.of("x", 1);
        System.out.println(p + " " + p.equals(Pair.of("x", 1)) + " " + (p.hashCode() == Pair.of("x", 1).hashCode()) + " "
            + p.first().length() + p.second());
        long big = 0;
        Long boxed = 10L;
        for (Integer i = 0; i < 5; i++) { big += i; boxed++; }
        System.out.println(big + " " + boxed + " " + Integer.valueOf(127).equals(127) + " " + Boolean.valueOf(true));
    }
}
