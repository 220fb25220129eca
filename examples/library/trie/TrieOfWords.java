import java.util.*;

class Trie {
    private static class Node {
        final Map<Character, Node> kids = new TreeMap<Character, Node>();
        boolean word;
    }
    private final Node root = new Node();
    void insert(String w) {
        Node n = root;
        for (int i = 0; i < w.length(); i++) {
            char c = w.charAt(i);
            Node k = n.kids.get(c);
            if (k == null) { k = new Node(); n.kids.put(c, k); }
            n = k;
        }
        n.word = true;
    }
    List<String> withPrefix(String p) {
        List<String> out = new ArrayList<>();
        Node n = root;
        for (char c : p.toCharArray()) { n = n.kids.get(c); if (n == null) return out; }
        collect(n, new StringBuilder(p), out);
        return out;
    }
    private void collect(Node n, StringBuilder sb, List<String> out) {
        if (n.word) out.add(sb.toString());
        for (Map.Entry<Character, Node> e : n.kids.entrySet()) {
            sb.append(e.getKey());
            collect(e.getValue(), sb, out);
            sb.deleteCharAt(sb.length() - 1);
        }
    }
}

/** A trie of words, and Huffman codes by a priority queue. */
public class TrieOfWords {
    public static void main(String[] args) {
        Trie t = new Trie();
        for (String w : "car card care cat dog door do".split(" ")) t.insert(w);
        System.out.println(t.withPrefix("car") + " " + t.withPrefix("do") + " " + t.withPrefix("x").isEmpty());
        Map<Character, Integer> freq = new TreeMap<>();
        for (char c : "abracadabra".toCharArray()) {
            Integer f = freq.get(c);
            freq.put(c, f == null ? 1 : f + 1);
        }
        PriorityQueue<Huff> pq = new PriorityQueue<>();
        for (Map.Entry<Character, Integer> e : freq.entrySet()) pq.add(new Huff(e.getValue(), e.getKey(), null, null));
        while (pq.size() > 1) { Huff a = pq.poll(), b = pq.poll(); pq.add(new Huff(a.f + b.f, (char) Math.min(a.c, b.c), a, b)); }
        Map<Character, String> code = new TreeMap<>();
        pq.peek().codes("", code);
        StringBuilder sb = new StringBuilder();
        for (char c : "abracadabra".toCharArray()) sb.append(code.get(c));
        System.out.println(code + " " + sb + " " + sb.length() + " bits");
    }
}

class Huff implements Comparable<Huff> {
    final int f; final char c; final Huff l, r;
    Huff(int f, char c, Huff l, Huff r) { this.f = f; this.c = c; this.l = l; this.r = r; }
    public int compareTo(Huff o) { return f != o.f ? f - o.f : c - o.c; }
    void codes(String p, Map<Character, String> m) {
        if (l == null) { m.put(c, p.isEmpty() ? "0" : p); return; }
        l.codes(p + "0", m);
        r.codes(p + "1", m);
    }
}
