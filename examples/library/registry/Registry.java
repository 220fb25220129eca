import java.util.Arrays;
import java.util.Collections;
import java.util.Enumeration;
import java.util.Iterator;
import java.util.List;
import java.util.Map;
import java.util.Set;
import java.util.TreeSet;
import java.util.concurrent.ConcurrentHashMap;
import java.util.concurrent.ConcurrentMap;
import java.util.concurrent.CopyOnWriteArrayList;
import java.util.function.BiFunction;
import java.util.function.Function;

/** Services by their topics, in collections that are changed while they are walked along. */
public class Registry {
    interface Service {
        void call(Registry registry, String text);
    }

    private final ConcurrentMap<String, List<Service>> services = new ConcurrentHashMap<>();

    void add(String topic, Service service) {
        List<Service> made = new CopyOnWriteArrayList<>();
        List<Service> there = services.putIfAbsent(topic, made);
        (there == null ? made : there).add(service);
    }

    boolean remove(String topic, Service service) {
        List<Service> there = services.get(topic);
        return there != null && there.remove(service) && (!there.isEmpty() || services.remove(topic, there));
    }

    void call(String topic, String text) {
        for (Service it : services.getOrDefault(topic, Collections.<Service>emptyList())) {
            it.call(this, text);
        }
    }

    /** A service that is there for so many calls, and then hands its place to another. */
    static class Limited implements Service {
        private final String topic;
        private final Service next;
        private int left;

        Limited(String topic, int left, Service next) {
            this.topic = topic;
            this.left = left;
            this.next = next;
        }

        @Override
        public void call(Registry registry, String text) {
            left--;
            System.out.println(topic + ": " + text + ", " + left + " left");
            if (left == 0) {
                registry.remove(topic, this);
                if (next != null) {
                    registry.add(topic, next);
                }
            }
        }
    }

    /** All whose number is even have one hash code, and all others another. */
    static final class Ticket {
        private final int number;

        Ticket(int number) {
            this.number = number;
        }

        @Override
        public int hashCode() {
            return number % 2;
        }

        @Override
        public boolean equals(Object o) {
            return o instanceof Ticket && ((Ticket) o).number == number;
        }

        @Override
        public String toString() {
            return "t" + number;
        }
    }

    private static void counts(String text) {
        ConcurrentHashMap<String, Integer> counts = new ConcurrentHashMap<>();
        BiFunction<Integer, Integer, Integer> sum = new BiFunction<Integer, Integer, Integer>() {
            @Override
            public Integer apply(Integer a, Integer b) {
                return a + b;
            }
        };
        for (String word : text.split(" ")) counts.merge(word, 1, sum);
        System.out.println(counts + " " + counts.mappingCount());
        for (String word : counts.keySet()) {
            if (word.length() < 3) counts.remove(word);
            else if (word.startsWith("w")) counts.put(word.toUpperCase(), word.length());
        }
        System.out.println(counts);
        for (Iterator<Map.Entry<String, Integer>> i = counts.entrySet().iterator(); i.hasNext();) {
            Map.Entry<String, Integer> e = i.next();
            if (e.getValue() == 1) i.remove();
            else e.setValue(e.getValue() * 100);
        }
        System.out.println(counts + " " + new TreeSet<>(counts.values()));
    }

    private static void tickets() {
        ConcurrentHashMap<Ticket, Integer> tickets = new ConcurrentHashMap<>(4);
        for (int i = 0; i < 15; i++) tickets.put(new Ticket(i * 3), i);
        System.out.println(tickets);
        StringBuilder walked = new StringBuilder();
        for (Enumeration<Ticket> e = tickets.keys(); e.hasMoreElements();) {
            Ticket t = e.nextElement();
            walked.append(t).append(' ');
            if (t.number % 4 == 0) tickets.remove(t);
        }
        System.out.println(walked + "" + tickets.keySet() + tickets.replace(new Ticket(3), 1, 100) + tickets.contains(100));
    }

    private static void numbers() {
        final ConcurrentHashMap<Integer, Long> known = new ConcurrentHashMap<>();
        Function<Integer, Long> fibonacci = new Function<Integer, Long>() {
            @Override
            public Long apply(Integer n) {
                return n < 2 ? Long.valueOf(n) : Long.valueOf(known.computeIfAbsent(n - 1, this) + known.computeIfAbsent(n - 2, this));
            }
        };
        System.out.println(known.computeIfAbsent(9, fibonacci) + " " + known);
        try {
            known.computeIfAbsent(60, fibonacci);
        } catch (IllegalStateException e) {
            System.out.println(e.getMessage());
        }
        Set<Integer> set = ConcurrentHashMap.newKeySet();
        set.addAll(Arrays.asList(100, 3, 20, 3, 16));
        System.out.println(set + " " + set.add(20) + set.remove(3) + set.retainAll(Arrays.asList(16, 100)) + set);
    }

    public static void main(String[] args) {
        Registry registry = new Registry();
        Service plain = new Service() {
            @Override
            public void call(Registry in, String text) {
                System.out.println("plain: " + text + ", " + in.services.keySet());
            }
        };
        registry.add("print", new Limited("print", 2, new Limited("print", 1, null)));
        registry.add("print", plain);
        registry.add("mail", new Limited("mail", 1, null));
        for (String line : "print a;mail b;fax c;print d;print e;mail f".split(";")) {
            String[] words = line.split(" ");
            registry.call(words[0], words[1]);
        }
        System.out.println(registry.remove("print", plain) + " " + registry.remove("print", plain) + registry.services);
        counts("how much wood would a woodchuck chuck if a woodchuck could chuck wood");
        tickets();
        numbers();
        List<Integer> list = new CopyOnWriteArrayList<>(new Integer[] {3, 1, 2});
        Iterator<Integer> old = list.iterator();
        for (Integer it : list) list.add(it * 10);
        Collections.sort(list, Collections.<Integer>reverseOrder());
        System.out.print(list + " then");
        while (old.hasNext()) System.out.print(" " + old.next());
        System.out.println();
        list.subList(1, 3).clear();
        System.out.println(list);
        try {
            old.remove();
        } catch (UnsupportedOperationException e) {
            System.out.println(e);
        }
    }
}
