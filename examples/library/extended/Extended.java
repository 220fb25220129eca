import java.util.ArrayList;
import java.util.Arrays;
import java.util.Collection;
import java.util.Collections;
import java.util.HashMap;
import java.util.HashSet;
import java.util.Iterator;
import java.util.LinkedHashMap;
import java.util.List;
import java.util.Map;
import java.util.Set;
import java.util.TreeMap;
import java.util.concurrent.ConcurrentHashMap;
import java.util.function.BiFunction;

/** Classes that extend collections: which of the methods that they replace are called by the others, and which aren't. */
public class Extended {
    /** Counted from 1, and round. */
    static class Round<E> extends ArrayList<E> {
        Round(Collection<? extends E> c) {
            super(c);
        }

        @Override
        public E get(int index) {
            return super.get(Math.floorMod(index - 1, size()));
        }
    }

    /** Its keys are put in small letters. */
    static class Small<V> extends HashMap<String, V> {
        private final StringBuilder told = new StringBuilder();

        Small() {
        }

        Small(Map<String, ? extends V> map) {
            super(map);
            told.append(map.size()).append(" copied,");
        }

        @Override
        public V put(String key, V value) {
            told.append(" put ").append(key);
            return super.put(key.toLowerCase(), value);
        }

        @Override
        public V get(Object key) {
            return super.get(((String) key).toLowerCase());
        }

        @Override
        public V remove(Object key) {
            told.append(" remove ").append(key);
            return super.remove(key);
        }
    }

    /** Keeps the youngest. */
    static class Recent<K, V> extends LinkedHashMap<K, V> {
        private final int most;

        Recent(int most) {
            this.most = most;
        }

        Recent(int most, Map<K, V> map) {
            super(map);
            this.most = most;
        }

        @Override
        protected boolean removeEldestEntry(Map.Entry<K, V> eldest) {
            return size() > most;
        }

        @Override
        public V remove(Object key) {
            System.out.print("(remove " + key + ") ");
            return super.remove(key);
        }
    }

    /** Counts what was tried to be added. */
    static class Counted extends HashSet<String> {
        int count;

        @Override
        public boolean add(String s) {
            count++;
            return super.add(s);
        }

        @Override
        public boolean addAll(Collection<? extends String> c) {
            count += c.size();
            return super.addAll(c);
        }

        @Override
        public boolean remove(Object o) {
            count--;
            return super.remove(o);
        }
    }

    /** Its entries are in the order of their keys. */
    static class Shown extends HashMap<String, Integer> {
        @Override
        public Set<Map.Entry<String, Integer>> entrySet() {
            Map<String, Integer> sorted = new TreeMap<>();
            for (String key : keySet()) sorted.put(key, get(key));
            return sorted.entrySet();
        }
    }

    static class Guarded extends ConcurrentHashMap<String, Integer> {
        @Override
        public Integer put(String key, Integer value) {
            System.out.print("[put " + key + "] ");
            return super.put(key, value);
        }

        @Override
        public Integer remove(Object key) {
            throw new UnsupportedOperationException("remove " + key);
        }
    }

    private static void lists() {
        Round<String> days = new Round<>(Arrays.asList("mo", "tu", "we"));
        System.out.print(days.get(1) + " " + days.get(4) + " " + days.get(0) + " " + days + " " + days.indexOf("we") + days.lastIndexOf("mo"));
        for (String day : days) System.out.print(" " + day);
        List<String> part = days.subList(1, 3);
        System.out.println(" " + part + part.get(0) + " " + String.join("+", days) + " " + days.equals(Arrays.asList("mo", "tu", "we")));
    }

    private static void maps() {
        Map<String, Integer> from = new LinkedHashMap<>();
        for (String s : "One Two Three Four".split(" ")) from.put(s, s.length());
        Small<Integer> small = new Small<>(from);
        small.put("FIVE", 4);
        small.putAll(Collections.singletonMap("SIX", 3));
        small.putIfAbsent("Seven", 5);
        small.remove("One");
        small.keySet().remove("Two");
        small.remove("Three", 5);
        small.replace("Four", 40);
        Iterator<String> i = small.keySet().iterator();
        i.next();
        i.remove();
        System.out.println(small + " " + small.get("Five") + small.get("SIX") + " " + small.told);

        Recent<String, Integer> recent = new Recent<>(2, from);
        System.out.print(recent + " ");
        recent.put("Five", 5);
        System.out.print(recent + " ");
        recent.values().remove(4);
        recent.keySet().remove("Two");
        System.out.println(recent);
        Recent<Integer, Integer> few = new Recent<>(3);
        for (int k = 0; k < 6; k++) few.merge(k % 4, k, joined(k));
        System.out.println(few);

        Shown shown = new Shown();
        shown.putAll(from);
        System.out.println(shown + " " + shown.keySet().size() + " " + new LinkedHashMap<>(shown));

        Guarded guarded = new Guarded();
        guarded.putAll(from);
        guarded.put("Five", 5);
        guarded.merge("Five", 5, joined(0));
        guarded.values().remove(50);
        guarded.entrySet().iterator().next().setValue(9);
        try {
            guarded.remove("Five");
        } catch (UnsupportedOperationException e) {
            System.out.println(e.getMessage() + " " + guarded);
        }
    }

    private static BiFunction<Integer, Integer, Integer> joined(final int more) {
        return new BiFunction<Integer, Integer, Integer>() {
            @Override
            public Integer apply(Integer a, Integer b) {
                return a * 10 + b + more;
            }
        };
    }

    public static void main(String[] args) {
        lists();
        maps();
        Counted counted = new Counted();
        counted.addAll(Arrays.asList("a", "b", "c"));
        System.out.print(counted + " " + counted.count);
        counted.removeAll(Arrays.asList("a", "x"));
        System.out.print(" " + counted.count);
        counted.removeAll(Arrays.asList("b", "y", "z"));
        System.out.println(" " + counted.count + " " + counted);
    }
}
