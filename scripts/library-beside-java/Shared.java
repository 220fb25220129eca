import java.util.AbstractMap;
import java.util.ArrayList;
import java.util.Arrays;
import java.util.Collections;
import java.util.Comparator;
import java.util.Enumeration;
import java.util.HashMap;
import java.util.Iterator;
import java.util.List;
import java.util.ListIterator;
import java.util.Map;
import java.util.Scanner;
import java.util.Set;
import java.util.concurrent.ConcurrentHashMap;
import java.util.concurrent.ConcurrentMap;
import java.util.concurrent.CopyOnWriteArrayList;
import java.util.function.BiFunction;
import java.util.function.Function;
import java.util.function.Predicate;
import java.util.function.UnaryOperator;

/** ConcurrentHashMap, by keys that share places, and CopyOnWriteArrayList; both are changed while they are walked along. */
public class Shared {
    /** A key with few hash codes, at most seven of which share one of 64 places. */
    private static final class Key {
        private final int id;
        private final int factor;

        Key(int id, int factor) {
            this.id = id;
            this.factor = factor;
        }

        @Override
        public int hashCode() {
            return id * factor;
        }

        @Override
        public boolean equals(Object o) {
            return o instanceof Key && ((Key) o).id == id;
        }

        @Override
        public String toString() {
            return "k" + id;
        }
    }

    private static int factor;

    static Key key(Draws d) {
        return d.below(60) == 0 ? null : new Key(d.below(28), factor);
    }

    static String value(Draws d) {
        return d.below(25) == 0 ? null : d.text("xyz", 2);
    }

    private static final class Change implements BiFunction<Object, String, String> {
        private final Draws d;
        private final Map<Key, String> within;

        Change(Draws d, Map<Key, String> within) {
            this.d = d;
            this.within = within;
        }

        @Override
        public String apply(Object a, String b) {
            if (d.below(4) == 0) {
                within.remove(a);
            }
            return d.below(4) == 0 ? null : "c" + d.below(10);
        }

        Function<Object, String> alone() {
            return new Function<Object, String>() {
                @Override
                public String apply(Object key) {
                    return Change.this.apply(key, "");
                }
            };
        }
    }

    static Map<Key, String> more(Draws d) {
        Map<Key, String> more = new HashMap<>();
        for (int i = d.below(20); i > 0; i--) {
            more.put(new Key(d.below(28), factor), d.text("uvw", 2));
        }
        return more;
    }

    /** Changes the map at some steps of a walk. */
    static <T> String walked(Draws d, ConcurrentMap<Key, String> m, Iterator<T> i) {
        StringBuilder all = new StringBuilder();
        while (i.hasNext()) {
            T t = i.next();
            all.append(t).append(' ');
            switch (d.below(12)) {
                case 0: i.remove(); break;
                case 1: m.putAll(more(d)); break;
                case 2: m.remove(new Key(d.below(28), factor)); break;
                case 3: m.put(new Key(d.below(28), factor), "new"); break;
                case 4: if (d.below(5) == 0) { m.clear(); } break;
                case 5:
                    if (t instanceof Map.Entry) {
                        ((Map.Entry<Key, String>) t).setValue("set");
                        all.append(t).append(t.hashCode());
                    }
                    break;
                default: break;
            }
        }
        if (d.below(5) == 0) {
            i.remove();
            i.remove();
        }
        return all.append(m).toString();
    }

    static Object ofMap(Draws d, ConcurrentHashMap<Key, String> m, int which) {
        Key k = key(d);
        String v = value(d);
        switch (which) {
            case 0: case 1: case 2: case 3: return m.put(k, v);
            case 4: case 5: return m.remove(k);
            case 6: return m.get(k) + m.getOrDefault(k, "other") + m.containsKey(k) + m.containsValue(v) + m.contains("x");
            case 7: return m.putIfAbsent(k, v);
            case 8: return m.computeIfAbsent(k, new Change(d, d.coin() ? m : new HashMap<Key, String>()).alone());
            case 9: return m.computeIfPresent(k, new Change(d, new HashMap<Key, String>()));
            case 10: return m.compute(k, new Change(d, new HashMap<Key, String>()));
            case 11: return m.merge(k, v, new Change(d, new HashMap<Key, String>()));
            case 12: return m.remove(k, v);
            case 13: return m.replace(k, v == null ? "n" : v) + m.replace(k, "n", "r");
            case 14: m.putAll(more(d)); return m.mappingCount();
            case 15: return walked(d, m, m.entrySet().iterator());
            case 16: return walked(d, m, m.keySet().iterator());
            case 17: return walked(d, m, m.values().iterator());
            case 18: return m.keySet().removeAll(Arrays.asList(new Key(3, factor), "")) + " " + m.values().remove(v) + " " + m.keySet()
                + m.values();
            case 19: return m.equals(new HashMap<>(m)) + " " + new HashMap<>(m).equals(m) + " " + m.hashCode()
                + m.entrySet().equals(m.entrySet()) + m.keySet().equals(m.keySet()) + m.keySet().hashCode();
            case 20: return m.entrySet().contains(new AbstractMap.SimpleEntry<>(k, v)) + " "
                + m.entrySet().remove(new AbstractMap.SimpleEntry<>(k, v));
            case 21: {
                StringBuilder all = new StringBuilder();
                for (Enumeration<Key> e = m.keys(); e.hasMoreElements();) {
                    all.append(e.nextElement());
                }
                for (Enumeration<String> e = m.elements(); e.hasMoreElements();) {
                    all.append(e.nextElement());
                }
                return all;
            }
            case 22: return m.keySet("kept").add(k) + " " + m.keySet("all").addAll(more(d).keySet()) + m.keySet("x").getMappedValue();
            case 23: return m.keySet().add(k);
            case 24: m.replaceAll(new Change(d, new HashMap<Key, String>())); return m;
            case 25: {
                ConcurrentHashMap<Key, String> copy = d.coin() ? new ConcurrentHashMap<>(m)
                    : new ConcurrentHashMap<Key, String>(d.below(30));
                copy.putAll(m);
                return copy + " " + copy.size() + copy.isEmpty();
            }
            case 26: m.clear(); return m;
            case 27: {
                Set<Key> set = d.coin() ? ConcurrentHashMap.<Key>newKeySet() : ConcurrentHashMap.<Key>newKeySet(d.below(20));
                return set.addAll(m.keySet()) + " " + set.add(k) + set.remove(k) + set.contains(k) + set + set.size()
                    + set.retainAll(more(d).keySet()) + set;
            }
            case 28: return m.keySet().retainAll(more(d).keySet());
            default: return Arrays.toString(m.keySet().toArray()) + Arrays.toString(m.values().toArray(new String[0]));
        }
    }

    // ---- lists

    private static final Predicate<Integer> EVEN = new Predicate<Integer>() {
        @Override
        public boolean test(Integer i) {
            return i != null && i % 2 == 0;
        }
    };
    private static final UnaryOperator<Integer> MORE = new UnaryOperator<Integer>() {
        @Override
        public Integer apply(Integer i) {
            return i == null ? 0 : i + 1;
        }
    };

    static List<Integer> some(Draws d) {
        List<Integer> all = new ArrayList<>();
        for (int i = d.below(6); i > 0; i--) {
            all.add(d.below(12) == 0 ? null : Integer.valueOf(d.below(20)));
        }
        return all;
    }

    static Object ofList(Draws d, CopyOnWriteArrayList<Integer> l, int which) {
        int i = d.below(l.size() + 3) - 1;
        int j = d.below(l.size() + 3) - 1;
        Integer x = d.below(12) == 0 ? null : Integer.valueOf(d.below(20));
        switch (which) {
            case 0: case 1: case 2: return l.add(x);
            case 3: l.add(i, x); return l;
            case 4: return l.addAll(some(d)) + " " + l.addAll(i, some(d));
            case 5: return l.addIfAbsent(x) + " " + l.addAllAbsent(some(d));
            case 6: return l.set(i, x);
            case 7: return l.remove(i);
            case 8: return l.remove((Object) x);
            case 9: return l.get(i);
            case 10: return l.indexOf(x) + " " + l.lastIndexOf(x) + " " + l.contains(x) + l.containsAll(some(d)) + l.isEmpty();
            case 11: return l.removeAll(some(d)) + " " + (d.below(4) == 0 && l.retainAll(Arrays.asList(1, 2, 3, 4, 5, 6, 7, 8)));
            case 12: return l.removeIf(EVEN);
            case 13: l.replaceAll(MORE); return l;
            case 14: l.sort(d.coin() ? Comparator.nullsFirst(Collections.<Integer>reverseOrder()) : null); return l;
            case 15: {
                StringBuilder all = new StringBuilder();
                for (Integer o : l) {
                    all.append(o).append(' ');
                    switch (d.below(4)) {
                        case 0: l.add(o); break;
                        case 1: l.remove(o); break;
                        case 2: if (!l.isEmpty()) { l.set(0, o); } break;
                        default: break;
                    }
                }
                return all;
            }
            case 16: {
                ListIterator<Integer> w = l.listIterator(i);
                StringBuilder all = new StringBuilder();
                l.clear();
                while (w.hasPrevious()) {
                    all.append(w.previousIndex()).append(w.previous());
                }
                while (w.hasNext()) {
                    all.append(w.nextIndex()).append(w.next());
                }
                l.addAll(some(d));
                switch (d.below(4)) {
                    case 0: w.add(1); break;
                    case 1: w.next(); break;
                    default: break;
                }
                return all;
            }
            case 17: {
                Iterator<Integer> w = l.iterator();
                w.next();
                w.remove();
                return "";
            }
            case 18: {
                List<Integer> part = l.subList(i, j);
                String told = part + " " + part.indexOf(x) + part.size();
                part.add(x);
                part.set(0, 99);
                part.remove((Object) x);
                if (d.coin()) {
                    l.add(5);
                }
                return told + part + part.size();
            }
            case 19: l.subList(i, j).clear(); return l;
            case 20: return l.equals(new ArrayList<>(l)) + " " + new ArrayList<>(l).equals(l) + l.hashCode() + l.equals(l.clone())
                + new CopyOnWriteArrayList<>(new Integer[] {1, x}) + new CopyOnWriteArrayList<>(l);
            case 21: Collections.sort(l, Comparator.nullsFirst(Comparator.<Integer>naturalOrder())); Collections.reverse(l); return l;
            case 22: Collections.swap(l, i, j); return l;
            case 23: l.clear(); return l;
            default: return Arrays.toString(l.toArray()) + Arrays.toString(l.toArray(new Integer[0])) + l.toArray(new Integer[9]).length;
        }
    }

    public static void main(String[] args) {
        Draws d = new Draws(new Scanner(System.in).nextLong());
        int[] factors = {1, 3, 8, 16, 1 << 20, -16, 0x10010};
        for (int round = 0; round < 14; round++) {
            factor = factors[round % factors.length];
            ConcurrentHashMap<Key, String> m = d.coin() ? new ConcurrentHashMap<Key, String>()
                : new ConcurrentHashMap<Key, String>(d.below(30));
            for (int k = 0; k < 60; k++) {
                int which = d.below(5) == 0 ? d.below(30) : d.below(18);
                String answer;
                try {
                    answer = String.valueOf(ofMap(d, m, which));
                } catch (IllegalStateException e) {
                    answer = e.getMessage();
                    m = new ConcurrentHashMap<>(); // the JDK's grows no more
                } catch (RuntimeException e) {
                    answer = Draws.told(e);
                }
                System.out.println(factor + " " + which + ": " + answer + " | " + m);
            }
        }
        CopyOnWriteArrayList<Integer> l = new CopyOnWriteArrayList<>();
        for (int k = 0; k < 300; k++) {
            int which = d.below(25);
            String answer;
            try {
                answer = String.valueOf(ofList(d, l, which));
            } catch (RuntimeException e) {
                answer = Draws.told(e);
            }
            System.out.println("list " + which + ": " + answer + " | " + l);
            if (l.size() > 25) {
                l.clear();
            }
        }
    }
}
