import java.util.ArrayList;
import java.util.Collections;
import java.util.Comparator;
import java.util.Iterator;
import java.util.LinkedList;
import java.util.List;
import java.util.PriorityQueue;
import java.util.Queue;
import java.util.Random;

/** A shop's customers, who come, wait, are served and go: events in the order of time. */
public class Shop {
    abstract class Event implements Comparable<Event> {
        final int time;
        private final int number;

        Event(int time) {
            this.time = time;
            this.number = events++;
        }

        abstract void happen();

        @Override
        public int compareTo(Event other) {
            return time != other.time ? Integer.compare(time, other.time) : Integer.compare(number, other.number);
        }
    }

    class Comes extends Event {
        final Customer customer;

        Comes(int time, Customer customer) {
            super(time);
            this.customer = customer;
        }

        @Override
        void happen() {
            customer.came = time;
            waiting.add(customer);
            longest = Math.max(longest, waiting.size());
            serve(time);
        }
    }

    class Goes extends Event {
        Goes(int time) {
            super(time);
        }

        @Override
        void happen() {
            free++;
            serve(time);
        }
    }

    static class Customer {
        private static int count;

        final String name = "c" + ++count;
        int came;
        int waited;

        @Override
        public String toString() {
            return name + "+" + waited;
        }
    }

    private final PriorityQueue<Event> agenda = new PriorityQueue<>();
    private final Queue<Customer> waiting = new LinkedList<>();
    private final List<Customer> served = new ArrayList<>();
    private final Random random;
    private int events;
    private int free;
    private int longest;

    Shop(int tills, long seed) {
        this.free = tills;
        this.random = new Random(seed);
    }

    private void serve(int time) {
        while (free > 0 && !waiting.isEmpty()) {
            Customer next = waiting.remove();
            next.waited = time - next.came;
            served.add(next);
            free--;
            agenda.add(new Goes(time + 3 + random.nextInt(6)));
        }
    }

    void open(int customers) {
        int time = 0;
        for (int i = 0; i < customers; i++) {
            time += random.nextInt(4);
            agenda.offer(new Comes(time, new Customer()));
        }
        while (!agenda.isEmpty()) {
            agenda.poll().happen();
        }
    }

    public static void main(String[] args) {
        for (int tills = 1; tills <= 4; tills++) {
            Shop shop = new Shop(tills, 2026);
            shop.open(30);
            int all = 0;
            for (Customer c : shop.served) {
                all += c.waited;
            }
            Collections.sort(shop.served, new Comparator<Customer>() {
                @Override
                public int compare(Customer a, Customer b) {
                    return b.waited - a.waited;
                }
            });
            for (Iterator<Customer> i = shop.served.iterator(); i.hasNext();) {
                if (i.next().waited == 0) {
                    i.remove();
                }
            }
            System.out.println(tills + " tills: waited " + all + ", longest queue " + shop.longest + ", "
                + (shop.served.isEmpty() ? "nobody waited" : shop.served.subList(0, Math.min(5, shop.served.size()))));
        }
    }
}
