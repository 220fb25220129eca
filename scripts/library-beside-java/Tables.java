import java.util.Arrays;
import java.util.Enumeration;
import java.util.HashMap;
import java.util.Hashtable;
import java.util.Iterator;
import java.util.Map;
import java.util.Scanner;

/** Hashtable, whose order is its own. */
public class Tables {
    static String key(Draws d) {
        return d.below(40) == 0 ? null : d.text("abcAaBBb", 1 + d.below(4));
    }

    static String value(Draws d) {
        return d.below(20) == 0 ? null : d.text("xyz", 2);
    }

    static String listed(Enumeration<String> all) {
        StringBuilder told = new StringBuilder();
        while (all.hasMoreElements()) {
            told.append(all.nextElement()).append(' ');
        }
        return told.toString();
    }

    static Object change(Draws d, Hashtable<String, String> t, int which) {
        String k = key(d);
        String v = value(d);
        switch (which) {
            case 0: case 1: case 2: case 3: case 4: return t.put(k, v);
            case 5: return t.remove(k);
            case 6: return t.get(k) + t.getOrDefault(k, "other") + t.containsKey(k) + t.contains(v) + t.containsValue(v);
            case 7: return t.putIfAbsent(k, v);
            case 8: return listed(t.keys()) + listed(t.elements());
            case 9: {
                Map<String, String> more = new HashMap<String, String>();
                for (int i = d.below(15); i > 0; i--) {
                    more.put("k" + d.below(50), "v" + i);
                }
                t.putAll(more);
                return more;
            }
            case 10: {
                StringBuilder all = new StringBuilder();
                for (Iterator<Map.Entry<String, String>> i = t.entrySet().iterator(); i.hasNext();) {
                    Map.Entry<String, String> e = i.next();
                    all.append(e).append(e.hashCode()).append(' ');
                    if (d.below(4) == 0) {
                        i.remove();
                    } else if (d.below(4) == 0) {
                        e.setValue(v);
                    }
                }
                return all;
            }
            case 11: return t.equals(new HashMap<>(t)) + " " + t.hashCode() + " " + new Hashtable<>(t) + new HashMap<>(t);
            case 12: return t.clone() + " " + t.clone().equals(t) + t.keySet() + t.values() + t.entrySet();
            case 13: return t.keySet().removeAll(Arrays.asList(String.valueOf(k), "a")) + " " + t.values().remove("x") + t.size() + t.isEmpty();
            case 14: for (String s : t.keySet()) { t.put(s + "q", s); } return "all";
            case 15: return t.elements().nextElement();
            default: t.clear(); return t;
        }
    }

    public static void main(String[] args) {
        Draws d = new Draws(new Scanner(System.in).nextLong());
        for (int round = 0; round < 8; round++) {
            Hashtable<String, String> t = round % 2 == 0 ? new Hashtable<String, String>() : new Hashtable<String, String>(d.below(6));
            for (int k = 0; k < 70; k++) {
                int which = d.below(9) == 0 ? d.below(17) : d.below(13);
                String answer;
                try {
                    answer = String.valueOf(change(d, t, which));
                } catch (RuntimeException e) {
                    answer = Draws.told(e);
                }
                System.out.println(which + ": " + answer + " | " + t);
            }
        }
    }
}
