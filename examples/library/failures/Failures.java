import java.io.IOException;
import java.util.*;

/** Exceptions of every kind: messages, causes, finally, those on the way that are put aside, and what goes on behind them. */
public class Failures {
    static class OrderException extends Exception {
        private final int code;

        OrderException(int code, String message) {
            super(message);
            this.code = code;
        }

        OrderException(String message, Throwable cause) {
            super(message, cause);
            this.code = -1;
        }

        int code() { return code; }
    }

    static class StockException extends OrderException {
        StockException(String item) {
            super(404, "no " + item + " in stock");
        }

        @Override
        public String getMessage() {
            return super.getMessage() + " (" + code() + ")";
        }
    }

    static final StringBuilder TRACE = new StringBuilder();

    @SuppressWarnings("finally")
    static int finallyWins() {
        try {
            throw new IllegalStateException("lost");
        } finally {
            return 7;
        }
    }

    static int finallyIsLate() {
        int x = 1;
        try {
            return x;
        } finally {
            x = 2;
            TRACE.append('f');
        }
    }

    static String nested(int how) {
        StringBuilder way = new StringBuilder();
        try {
            way.append("a");
            try {
                way.append("b");
                if (how == 1) throw new OrderException(1, "first");
                if (how == 2) throw new StockException("tea");
                if (how == 3) throw new IOException("disk");
                if (how == 4) throw new ArithmeticException();
                way.append("c");
            } catch (StockException e) {
                way.append("S").append(e.code());
                throw e;
            } catch (OrderException e) {
                way.append("O").append(e.code());
            } finally {
                way.append("d");
            }
            way.append("e");
        } catch (OrderException | IOException e) {
            way.append("[").append(e.getMessage()).append("]");
        } catch (RuntimeException e) {
            way.append("(").append(e.getMessage()).append(")");
        } finally {
            way.append("g");
        }
        return way.toString();
    }

    static class Door implements AutoCloseable {
        private final String name;

        Door(String name) {
            this.name = name;
            if (name.isEmpty()) throw new IllegalArgumentException("a door has a name");
            TRACE.append("<").append(name);
        }

        @Override
        public void close() {
            TRACE.append(name).append(">");
            if (name.length() > 1) throw new IllegalStateException(name + " is stuck");
        }
    }

    static void through(String... names) {
        try (Door a = new Door(names[0]); Door b = new Door(names[1]); Door c = names.length > 2 ? new Door(names[2]) : null) {
            TRACE.append("!");
            if (c == null) throw new NoSuchElementException("no third");
        }
    }

    static void order(Map<String, Integer> stock, String item, String count) throws OrderException {
        try {
            int wanted = Integer.parseInt(count), there = stock.get(item);
            if (wanted > there) throw new StockException(wanted - there + " " + item);
            stock.put(item, there - wanted);
        } catch (NumberFormatException e) {
            throw new OrderException("'" + count + "' of " + item, e);
        } catch (NullPointerException e) {
            throw (OrderException) new OrderException(2, "what is " + item + "?").initCause(new NoSuchElementException(item));
        }
    }

    static int depth(int n) {
        return n == 0 ? 0 : 1 + depth(n - 1);
    }

    static class Broken {
        static int value = compute();

        static int compute() {
            throw new IllegalStateException("can't begin");
        }
    }

    public static void main(String[] args) {
        System.out.println(finallyWins() + " " + finallyIsLate() + " " + TRACE);
        for (int how = 0; how < 5; how++) System.out.print(nested(how) + " ");
        System.out.println();
        String[][] ways = {{"a", "b", "c"}, {"a", "b"}, {"a", "bb", "c"}, {"aa", "bb"}, {"a", ""}};
        for (String[] way : ways) {
            TRACE.setLength(0);
            String end = "through";
            try {
                through(way);
            } catch (RuntimeException e) {
                end = e.getMessage();
                for (Throwable it : e.getSuppressed()) end += ", beside " + it.getMessage();
            }
            System.out.println(TRACE + " " + end);
        }
        Map<String, Integer> stock = new HashMap<>();
        stock.put("tea", 5);
        String[] orders = {"tea 3", "tea 4", "tea x", "cake 1"};
        for (String it : orders) {
            String[] parts = it.split(" ");
            try {
                order(stock, parts[0], parts[1]);
                System.out.println("sold, left " + stock);
            } catch (OrderException e) {
                StringBuilder text = new StringBuilder();
                for (Throwable t = e; t != null; t = t.getCause()) text.append(text.length() == 0 ? "" : " <- ").append(t.getMessage());
                System.out.println(text + " " + e.code() + " " + (e instanceof StockException));
            }
        }
        Object[] wrong = {"text", 5, null};
        for (int i = 0; i <= wrong.length; i++) {
            try {
                System.out.print(((String) wrong[i]).length() + " ");
            } catch (ClassCastException e) {
                System.out.print("cast ");
            } catch (NullPointerException e) {
                System.out.print("null ");
            } catch (ArrayIndexOutOfBoundsException e) {
                System.out.print("index\n");
            }
        }
        List<String> messages = new ArrayList<>();
        try { new ArrayList<Integer>().get(0); } catch (IndexOutOfBoundsException e) { messages.add(e.getMessage()); }
        try { "abc".substring(2, 1); } catch (StringIndexOutOfBoundsException e) { messages.add(e.getMessage()); }
        try { "abc".charAt(5); } catch (StringIndexOutOfBoundsException e) { messages.add(e.getMessage()); }
        try { new ArrayDeque<String>().pop(); } catch (NoSuchElementException e) { messages.add("" + e.getMessage()); }
        try { new LinkedList<String>().iterator().next(); } catch (NoSuchElementException e) { messages.add("" + e.getMessage()); }
        List<String> fixed = Collections.unmodifiableList(messages);
        try { fixed.add("x"); } catch (UnsupportedOperationException e) { messages.add("" + e.getMessage()); }
        try { Arrays.asList(1, 2).remove(0); } catch (UnsupportedOperationException e) { messages.add("" + e.getMessage()); }
        try { Objects.requireNonNull(null, "a name is wanted"); } catch (NullPointerException e) { messages.add(e.getMessage()); }
        try { new Scanner("12 x").nextLine().substring(9); } catch (StringIndexOutOfBoundsException e) { messages.add(e.getMessage()); }
        try { new Scanner("x").nextInt(); } catch (InputMismatchException e) { messages.add("" + e.getMessage()); }
        try { Long.parseLong("9223372036854775808"); } catch (NumberFormatException e) { messages.add(e.getMessage()); }
        try { Integer.valueOf(null); } catch (NumberFormatException e) { messages.add(e.getMessage()); }
        try { System.out.println(1 % (messages.size() - 12)); } catch (ArithmeticException e) { messages.add(e.getMessage()); }
        try { Integer[] a = {1}; Object[] b = a; b[0] = "x"; } catch (ArrayStoreException e) { messages.add("store"); }
        try { System.out.println(new int[-1].length); } catch (NegativeArraySizeException e) { messages.add("size"); }
        for (String it : messages) System.out.println("  " + it);
        try {
            System.out.println(Broken.value);
        } catch (ExceptionInInitializerError e) {
            System.out.println("it can't begin, " + e.getMessage());
        }
        try {
            System.out.println(Broken.value);
        } catch (NoClassDefFoundError e) {
            System.out.println("it stays broken");
        }
        System.out.println(depth(200));
        throw new UncheckedOrder(new StockException("bread"));
    }

    static class UncheckedOrder extends RuntimeException {
        UncheckedOrder(Throwable cause) { super(cause); }
    }
}
