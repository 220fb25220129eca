import java.util.ArrayList;
import java.util.Arrays;
import java.util.Collections;
import java.util.HashMap;
import java.util.Iterator;
import java.util.LinkedHashMap;
import java.util.List;
import java.util.Map;

/** Those who are told of events: generic listeners, classes in methods, objects that know the one they were made in. */
public class Listeners {
    interface Listener<E> {
        void told(E event);
    }

    static class Source<E> {
        private final Map<String, List<Listener<? super E>>> listeners = new LinkedHashMap<>();

        Subscription on(String topic, Listener<? super E> listener) {
            List<Listener<? super E>> of = listeners.get(topic);
            if (of == null) {
                of = new ArrayList<>();
                listeners.put(topic, of);
            }
            of.add(listener);
            return new Subscription(topic, listener);
        }

        int tell(String topic, E event) {
            List<Listener<? super E>> of = listeners.containsKey(topic) ? listeners.get(topic)
                : Collections.<Listener<? super E>>emptyList();
            for (Listener<? super E> it : new ArrayList<>(of)) it.told(event);
            return of.size();
        }

        class Subscription implements AutoCloseable {
            private final String topic;
            private final Listener<? super E> listener;

            private Subscription(String topic, Listener<? super E> listener) {
                this.topic = topic;
                this.listener = listener;
            }

            @Override
            public void close() {
                listeners.get(topic).remove(listener);
                if (listeners.get(topic).isEmpty()) listeners.remove(topic);
            }
        }
    }

    static abstract class Counting<E> implements Listener<E> {
        int count;

        @Override
        public final void told(E event) {
            count++;
            use(event);
        }

        protected abstract void use(E event);
    }

    static class Price {
        final String name;
        final int cents;

        Price(String name, int cents) {
            this.name = name;
            this.cents = cents;
        }
    }

    static Listener<Object> printer(final String prefix, final int... limits) {
        class Printer implements Listener<Object> {
            private int lines = limits.length > 0 ? limits[0] : Integer.MAX_VALUE;

            @Override
            public void told(Object event) {
                if (lines-- > 0) System.out.println(prefix + event);
            }
        }
        return new Printer();
    }

    public static void main(String[] args) {
        Source<Integer> numbers = new Source<>();
        final StringBuilder log = new StringBuilder();
        numbers.on("even", printer("even: "));
        numbers.on("odd", printer("odd, twice at most: ", 2));
        Counting<Number> sum = new Counting<Number>() {
            private long total;

            @Override
            protected void use(Number event) {
                total += event.longValue();
                log.append(total).append(count == 1 ? " (first) " : " ");
            }
        };
        try (Source<Integer>.Subscription even = numbers.on("even", sum); Source<Integer>.Subscription odd = numbers.on("odd", sum)) {
            for (int i = 1; i <= 7; i++) numbers.tell(i % 2 == 0 ? "even" : "odd", i * i);
        }
        System.out.println(log.toString().trim() + ", told " + sum.count + ", now " + numbers.tell("even", 100) + " "
            + numbers.tell("none", 1));

        final Source<Price> market = new Source<>();
        final Map<String, Integer> last = new HashMap<>();
        market.on("price", new Listener<Price>() {
            @Override
            public void told(Price price) {
                Integer before = last.put(price.name, price.cents);
                if (before != null && Math.abs(price.cents - before) * 10 > before) market.tell("jump", price);
            }
        });
        final List<String> jumps = new ArrayList<>();
        market.on("jump", new Listener<Price>() {
            @Override
            public void told(Price price) {
                jumps.add(price.name + "@" + price.cents);
                if (price.name.equals("bad")) throw new IllegalStateException("bad price " + price.cents);
            }
        });
        for (Object[] row : new Object[][] {{"tea", 100}, {"tea", 105}, {"tea", 130}, {"rice", 80}, {"rice", 70}, {"bad", 1}, {"bad", 9},
            {"tea", 129}}) {
            try {
                market.tell("price", new Price((String) row[0], (Integer) row[1]));
            } catch (IllegalStateException e) {
                System.out.println(e.getMessage());
            }
        }
        System.out.println(jumps + " " + last.get("tea") + " " + last.get("bad"));

        List<Runnable> later = new ArrayList<>();
        for (int i = 0; i < 4; i++) {
            final int number = i;
            later.add(new Runnable() {
                private int runs;
                @Override public void run() { System.out.print("[" + number + ":" + ++runs + "]"); }
            });
        }
        int kept = 0;
        for (Iterator<Runnable> it = later.iterator(); it.hasNext(); ) {
            Runnable next = it.next();
            next.run();
            if (kept++ % 2 == 0) it.remove();
        }
        later.addAll(later);
        for (Runnable it : later) it.run();
        System.out.println(" " + later.size() + " " + Arrays.asList(1, 2).equals(Arrays.asList(1, 2)));
    }
}
