import java.util.AbstractMap;
import java.util.Arrays;
import java.util.Collection;
import java.util.Collections;
import java.util.HashMap;
import java.util.Iterator;
import java.util.LinkedHashMap;
import java.util.Map;
import java.util.NavigableMap;
import java.util.NavigableSet;
import java.util.Scanner;
import java.util.TreeMap;
import java.util.function.BiFunction;
import java.util.function.Function;

/** HashMap, LinkedHashMap and TreeMap, with the parts and the views of each. */
public class Maps {
    private static final BiFunction<Object, Object, String> JOIN = new BiFunction<Object, Object, String>() {
        @Override
        public String apply(Object a, Object b) {
            return "z".equals(b) ? null : (a + "" + b).substring(0, Math.min(3, (a + "" + b).length()));
        }
    };
    private static final Function<Object, String> MAKE = new Function<Object, String>() {
        @Override
        public String apply(Object a) {
            return String.valueOf(a).length() > 3 ? null : "m" + a;
        }
    };

    static String key(Draws d) {
        return d.text("abcAaBBb", 1 + d.below(3));
    }

    static String value(Draws d) {
        return d.below(9) == 0 ? null : d.text("xyz", 2);
    }

    static Object change(Draws d, Map<String, String> m, int which) {
        String k = key(d);
        String v = value(d);
        switch (which) {
            case 0: case 1: case 2: case 3: return m.put(k, v);
            case 4: return m.remove(k);
            case 5: return m.get(k) + m.getOrDefault(k, "other") + m.containsKey(k) + m.containsValue(v);
            case 6: return m.putIfAbsent(k, v);
            case 7: return m.computeIfAbsent(k, MAKE);
            case 8: return m.computeIfPresent(k, JOIN);
            case 9: return m.compute(k, JOIN);
            case 10: return m.merge(k, v == null ? "q" : v, JOIN);
            case 11: return m.remove(k, v);
            case 12: return m.replace(k, v) + m.replace(k, v, "r");
            case 13: {
                Map<String, String> more = d.coin() ? new HashMap<String, String>() : new TreeMap<String, String>();
                for (int i = d.below(15); i > 0; i--) {
                    more.put(key(d), value(d));
                }
                m.putAll(more);
                return more;
            }
            case 14: {
                StringBuilder all = new StringBuilder();
                for (Iterator<Map.Entry<String, String>> i = m.entrySet().iterator(); i.hasNext();) {
                    Map.Entry<String, String> e = i.next();
                    all.append(e).append(e.hashCode()).append(' ');
                    if (d.below(4) == 0) {
                        i.remove();
                    } else if (d.below(4) == 0) {
                        e.setValue("set");
                    }
                }
                return all;
            }
            case 15: return m.keySet().removeAll(Arrays.asList(k, key(d), "")) + " " + m.values().remove(v) + " " + m.keySet() + m.values();
            case 16: return m.keySet().retainAll(Arrays.asList(k.split(""))) ? m.toString() : m.hashCode();
            case 17: return m.equals(new HashMap<>(m)) + " " + m.equals(new TreeMap<>()) + " " + new HashMap<>(m) + new LinkedHashMap<>(m);
            case 18: return m.entrySet().contains(new AbstractMap.SimpleEntry<>(k, v)) + " "
                + m.entrySet().remove(new AbstractMap.SimpleEntry<>(k, v));
            case 19: for (String s : m.keySet()) { m.remove(s); } return "all";
            case 20: for (String s : m.keySet()) { m.put(s + "q", s); } return "all";
            case 21: m.clear(); return m;
            case 22: return m.size() + " " + m.isEmpty() + " " + m.keySet().hashCode() + " " + m.entrySet().hashCode() + " "
                + m.keySet().equals(m.keySet());
            case 23: m.replaceAll(JOIN2); return m;
            case 24: return Collections.unmodifiableMap(m).put(k, v);
            case 25: return Collections.unmodifiableMap(m).get(k) + Collections.unmodifiableMap(m)
                + Collections.unmodifiableMap(m).keySet();
            default: return Arrays.toString(m.keySet().toArray()) + Arrays.toString(m.values().toArray(new String[0]));
        }
    }

    private static final BiFunction<Object, Object, String> JOIN2 = new BiFunction<Object, Object, String>() {
        @Override
        public String apply(Object a, Object b) {
            return b == null ? "n" : ((String) b).isEmpty() ? "e" : (String) b;
        }
    };

    static Object sorted(Draws d, NavigableMap<String, String> m, int which) {
        String k = key(d);
        String l = key(d);
        boolean a = d.coin();
        boolean b = d.coin();
        switch (which) {
            case 0: return m.firstEntry() + " " + m.lastEntry();
            case 1: return m.firstKey() + " " + m.lastKey();
            case 2: return m.floorKey(k) + " " + m.ceilingKey(k) + " " + m.lowerKey(k) + " " + m.higherKey(k);
            case 3: return m.floorEntry(k) + " " + m.ceilingEntry(k) + " " + m.lowerEntry(k) + " " + m.higherEntry(k);
            case 4: return m.pollFirstEntry() + " " + m.pollLastEntry();
            case 5: return told(d, m.headMap(k, a)) + told(d, (NavigableMap<String, String>) m.headMap(k));
            case 6: return told(d, m.tailMap(k, a)) + told(d, (NavigableMap<String, String>) m.tailMap(k));
            case 7: return told(d, m.subMap(k, a, l, b)) + m.subMap(k, l);
            case 8: return told(d, m.descendingMap());
            case 9: return told(d, m.navigableKeySet()) + told(d, m.descendingKeySet());
            case 10: return m.comparator() == null;
            case 11: m.firstEntry().setValue("no"); return m;
            default: return m.tailMap(k, a).headMap(l, b).put(key(d), "p");
        }
    }

    static String told(Draws d, NavigableMap<String, String> m) {
        String k = key(d);
        StringBuilder all = new StringBuilder().append(m).append(m.size()).append(m.isEmpty()).append(m.containsKey(k)).append(m.get(k));
        all.append(m.floorKey(k)).append(m.higherKey(k)).append(m.firstEntry()).append(m.lastEntry()).append(m.descendingMap());
        if (d.below(5) == 0) {
            all.append(m.pollFirstEntry());
        }
        if (d.below(9) == 0) {
            all.append(m.remove(k));
        }
        if (d.below(12) == 0) {
            m.clear();
        }
        return all.toString();
    }

    static String told(Draws d, NavigableSet<String> s) {
        String k = key(d);
        StringBuilder all = new StringBuilder().append(s).append(s.size()).append(s.contains(k)).append(s.floor(k)).append(s.higher(k));
        all.append(s.headSet(k, true)).append(s.tailSet(k)).append(s.descendingSet());
        if (d.below(6) == 0) {
            all.append(s.remove(k)).append(s.pollLast());
        }
        return all.toString();
    }

    public static void main(String[] args) {
        Draws d = new Draws(new Scanner(System.in).nextLong());
        for (int round = 0; round < 12; round++) {
            int kind = round % 4;
            Map<String, String> m = kind == 0 ? new HashMap<String, String>() : kind == 1 ? new LinkedHashMap<String, String>(d.below(20))
                : kind == 2 ? new TreeMap<String, String>() : new TreeMap<String, String>(Collections.<String>reverseOrder());
            if (round == 4) {
                m = new HashMap<>(d.below(5));
            }
            for (int k = 0; k < 70; k++) {
                boolean special = kind >= 2 && d.below(3) == 0;
                int which = special ? d.below(13) : d.below(4) == 0 ? d.below(27) : d.below(19);
                String answer;
                try {
                    answer = String.valueOf(special ? sorted(d, (NavigableMap<String, String>) m, which) : change(d, m, which));
                } catch (RuntimeException e) {
                    answer = Draws.told(e);
                }
                System.out.println(kind + (special ? " sorted " : " ") + which + ": " + answer + " | " + m);
            }
        }
    }
}
