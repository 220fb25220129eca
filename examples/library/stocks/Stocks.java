import java.io.*;
import java.text.ParseException;
import java.util.*;
import java.util.concurrent.Callable;
import java.util.concurrent.atomic.AtomicReference;
import java.util.function.UnaryOperator;

/** Prices that are watched: numbers and words sought in lines, a report that is caught, and formats that go wrong half-way. */
public class Stocks {
    static final class Stock extends Observable {
        private final String name;
        private int price;

        Stock(String name) { this.name = name; }

        void set(int price) {
            if (this.price != price) {
                setChanged();
            }
            this.price = price;
            notifyObservers(price);
        }

        @Override public String toString() { return name; }
    }

    static final class Watch implements Observer {
        private final BitSet seen = new BitSet();

        @Override
        public void update(Observable from, Object what) {
            seen.set((Integer) what);
            System.out.printf("%-5s %5d, watched by %d%n", from, what, from.countObservers());
        }
    }

    static int price(String text) throws ParseException {
        Scanner in = new Scanner(text).useRadix(16);
        if (!in.hasNextInt()) {
            throw new ParseException("no price in '" + text + "'", 0);
        }
        return in.nextInt();
    }

    static String caught(Callable<Object> action) throws Exception {
        PrintStream before = System.out;
        ByteArrayOutputStream bytes = new ByteArrayOutputStream();
        System.setOut(new PrintStream(bytes));
        try {
            return action.call() + " " + bytes;
        } catch (IllegalFormatException e) {
            return bytes + "| " + e;
        } finally {
            System.setOut(before);
        }
    }

    static Callable<Object> printing(final String format, final Object... values) {
        return new Callable<Object>() {
            @Override public Void call() {
                System.out.printf(format, values);
                return null;
            }
        };
    }

    public static void main(String[] args) throws Exception {
        Map<String, Stock> stocks = new TreeMap<>();
        Watch watch = new Watch();
        BufferedReader in = new BufferedReader(new InputStreamReader(System.in));
        for (String line = in.readLine(); line != null && !line.isEmpty(); line = in.readLine()) {
            Scanner words = new Scanner(line);
            String name = words.findInLine("[A-Z]{2,}");
            if (name == null) {
                System.out.println("no name: " + line);
                continue;
            }
            Stock stock = stocks.get(name);
            if (stock == null) {
                stock = new Stock(name);
                stock.addObserver(watch);
                stocks.put(name, stock);
            }
            words.skip("\\s*=\\s*");
            if (words.findInLine("(\\d+)\\s*\\+\\s*(\\d+)") != null) {
                stock.set(Integer.parseInt(words.match().group(1)) + Integer.parseInt(words.match().group(2)));
            } else {
                try {
                    stock.set(price(words.nextLine()));
                } catch (ParseException e) {
                    System.out.println(e.getMessage() + " at " + e.getErrorOffset());
                }
            }
        }
        System.out.println(watch.seen + " " + Arrays.toString(watch.seen.toLongArray()) + " " + BitSet.valueOf(new long[] {6, 1}));
        in.mark(100);
        int lines = 0;
        while (in.readLine() != null) {
            lines++;
        }
        in.reset();
        System.out.println(lines + " more, from " + in.readLine());
        System.out.println(caught(printing("%s has %d", "all", 3)));
        System.out.println(caught(printing("%s has %d", "one", "no number")));
        System.out.println(caught(printing("%s has %.2d", "none", 3)));
        System.out.println(caught(printing("%-05d", 3)));
        System.out.println(caught(printing("%d and %+s", 3, "x")));
        System.out.println(caught(printing("%d and %-,3$d", 3)));
        AtomicReference<String> last = new AtomicReference<>("none");
        last.updateAndGet(new UnaryOperator<String>() {
            @Override public String apply(String before) { return before + ", then " + 1; }
        });
        System.out.println(last);
        stocks.get("ACME").deleteObservers();
        stocks.get("ACME").set(1);
        System.out.println(stocks.get("ACME").countObservers() + " " + stocks.get("ACME").hasChanged());
        try {
            throw new EOFException("no more");
        } catch (IOException e) {
            System.out.println(e);
        }
    }
}
