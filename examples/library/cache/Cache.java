import java.util.HashMap;
import java.util.Map;

/** A cache that forgets what was used least recently. */
public class Cache {
    static class LRUCache<K, V> {
        private class Node {
            K key; V value; Node prev, next;
            Node(K k, V v) { key = k; value = v; }
        }
        private final int capacity;
        private final Map<K, Node> map = new HashMap<>();
        private final Node head = new Node(null, null), tail = new Node(null, null);
        LRUCache(int capacity) { this.capacity = capacity; head.next = tail; tail.prev = head; }
        V get(K key) {
            Node n = map.get(key);
            if (n == null) return null;
            unlink(n); pushFront(n);
            return n.value;
        }
        void put(K key, V value) {
            Node n = map.get(key);
            if (n != null) { n.value = value; unlink(n); pushFront(n); return; }
            if (map.size() == capacity) { Node last = tail.prev; unlink(last); map.remove(last.key); }
            n = new Node(key, value);
            map.put(key, n);
            pushFront(n);
        }
        private void unlink(Node n) { n.prev.next = n.next; n.next.prev = n.prev; }
        private void pushFront(Node n) { n.next = head.next; n.prev = head; head.next.prev = n; head.next = n; }
        @Override public String toString() {
            StringBuilder sb = new StringBuilder("{");
            for (Node n = head.next; n != tail; n = n.next) {
                if (n != head.next) sb.append(", ");
                sb.append(n.key).append("=").append(n.value);
            }
            return sb.append("}").toString();
        }
    }
    public static void main(String[] args) {
        LRUCache<String, Integer> c = new LRUCache<>(3);
        c.put("a", 1); c.put("b", 2); c.put("c", 3);
        System.out.println(c.get("a"));
        c.put("d", 4);
        System.out.println(c + " " + c.get("b") + " " + c.get("zzz"));
        for (int i = 0; i < 200; i++) c.put("k" + i % 7, i);
        System.out.println(c);
    }
}
