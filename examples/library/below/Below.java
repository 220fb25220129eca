import java.io.IOException;
import java.io.OutputStream;
import java.io.PrintStream;
import java.io.Reader;
import java.io.Writer;
import java.util.AbstractCollection;
import java.util.AbstractList;
import java.util.AbstractMap;
import java.util.AbstractSet;
import java.util.ArrayList;
import java.util.Arrays;
import java.util.Collections;
import java.util.HashMap;
import java.util.Iterator;
import java.util.LinkedHashMap;
import java.util.List;
import java.util.Map;
import java.util.NoSuchElementException;
import java.util.Scanner;
import java.util.Set;
import java.util.TreeMap;

/** Classes of one's own below the library's: what they leave out is inherited. */
public class Below {
    /** The numbers from one on, up to another. */
    static class Range extends AbstractList<Integer> {
        private final int from;
        private final int to;

        Range(int from, int to) {
            this.from = from;
            this.to = to;
        }

        @Override
        public Integer get(int index) {
            if (index < 0 || index >= size()) {
                throw new IndexOutOfBoundsException("no " + index);
            }
            return from + index;
        }

        @Override
        public int size() {
            return to - from;
        }
    }

    static class Squares extends AbstractMap<Integer, Integer> {
        @Override
        public Set<Map.Entry<Integer, Integer>> entrySet() {
            return new AbstractSet<Map.Entry<Integer, Integer>>() {
                @Override
                public int size() {
                    return 4;
                }

                @Override
                public Iterator<Map.Entry<Integer, Integer>> iterator() {
                    return new Iterator<Map.Entry<Integer, Integer>>() {
                        private int next = 1;

                        @Override
                        public boolean hasNext() {
                            return next <= 4;
                        }

                        @Override
                        public Map.Entry<Integer, Integer> next() {
                            if (!hasNext()) {
                                throw new NoSuchElementException();
                            }
                            int n = next++;
                            return new AbstractMap.SimpleEntry<>(n, n * n);
                        }
                    };
                }
            };
        }
    }

    static class Recent<K, V> extends LinkedHashMap<K, V> {
        @Override
        protected boolean removeEldestEntry(Map.Entry<K, V> eldest) {
            return size() > 3;
        }
    }

    /** A list that tells what is added. */
    static class Told extends ArrayList<String> {
        @Override
        public boolean add(String s) {
            System.out.print("+" + s + " ");
            return super.add(s);
        }
    }

    static class Counter extends HashMap<String, Integer> {
        void count(String s) {
            put(s, getOrDefault(s, 0) + 1);
        }
    }

    static class Upper extends Reader {
        private final Reader of;

        Upper(Reader of) {
            this.of = of;
        }

        @Override
        public int read(char[] chars, int at, int count) throws IOException {
            int n = of.read(chars, at, count);
            for (int i = 0; i < n; i++) {
                chars[at + i] = Character.toUpperCase(chars[at + i]);
            }
            return n;
        }

        @Override
        public void close() throws IOException {
            of.close();
        }
    }

    static class Counted extends Writer {
        private int count;

        @Override
        public void write(char[] chars, int at, int n) {
            count += n;
        }

        @Override
        public void flush() {
        }

        @Override
        public void close() {
        }
    }

    static class Point implements Cloneable, Comparable<Point> {
        private final int x;
        private final int y;

        Point(int x, int y) {
            this.x = x;
            this.y = y;
        }

        @Override
        public boolean equals(Object o) {
            if (this == o) {
                return true;
            }
            if (o == null || getClass() != o.getClass()) {
                return false;
            }
            Point p = (Point) o;
            return x == p.x && y == p.y;
        }

        @Override
        public int hashCode() {
            return 31 * x + y;
        }

        @Override
        protected Point clone() {
            return new Point(x, y);
        }

        @Override
        public int compareTo(Point p) {
            return x != p.x ? Integer.compare(x, p.x) : Integer.compare(y, p.y);
        }

        @Override
        public String toString() {
            return "(" + x + "," + y + ")";
        }
    }

    static class CodeException extends RuntimeException {
        CodeException(int code, Throwable cause) {
            super("code " + code, cause);
        }

        @Override
        public String getMessage() {
            return super.getMessage() + "!";
        }
    }

    public static void main(String[] args) throws IOException {
        List<Integer> range = new Range(3, 9);
        System.out.println(range + " " + range.indexOf(5) + " " + range.contains(9) + " " + range.subList(1, 3) + " " + range.hashCode()
            + " " + range.equals(Arrays.asList(3, 4, 5, 6, 7, 8)) + " " + Collections.max(range) + " " + Collections.binarySearch(range, 7));
        try {
            range.add(1);
        } catch (UnsupportedOperationException e) {
            System.out.println("can't be changed");
        }
        Map<Integer, Integer> squares = new Squares();
        System.out.println(squares + " " + squares.get(3) + " " + squares.get(5) + " " + squares.containsValue(16) + " " + squares.keySet()
            + " " + squares.values() + " " + squares.equals(new TreeMap<>(squares)) + " " + squares.hashCode());
        Map<String, Integer> recent = new Recent<>();
        for (String s : "a b c a d e".split(" ")) {
            recent.put(s, recent.size());
        }
        System.out.println(recent);
        List<String> told = new Told();
        Collections.addAll(told, "x", "y");
        told.addAll(Arrays.asList("z"));
        System.out.println(told);
        Counter counter = new Counter();
        for (char c : "mississippi".toCharArray()) {
            counter.count(String.valueOf(c));
        }
        System.out.println(counter);
        Scanner in = new Scanner(new Upper(new java.io.StringReader("some words here")));
        System.out.println(in.next() + in.nextLine());
        Counted counted = new Counted();
        counted.append('c').append("text").write(65);
        System.out.println(counted.count);
        final StringBuilder bytes = new StringBuilder();
        PrintStream stream = new PrintStream(new OutputStream() {
            @Override
            public void write(int b) {
                bytes.append(b & 0xff).append(' ');
            }
        });
        stream.print("a\u00e9");
        stream.flush();
        System.out.println(bytes);
        Point p = new Point(1, 2);
        System.out.println(p.equals(p.clone()) + " " + p.equals(null) + " " + new AbstractCollection<Point>() {
            @Override
            public Iterator<Point> iterator() {
                return Arrays.asList(new Point(2, 1), new Point(1, 3)).iterator();
            }

            @Override
            public int size() {
                return 2;
            }
        } + " " + Collections.min(Arrays.asList(new Point(2, 1), new Point(1, 3))));
        Point[] points = {new Point(5, 5), new Point(4, 9), new Point(4, 1)};
        Arrays.sort(points);
        System.out.println(Arrays.toString(points) + Arrays.asList(points).toArray(new Point[3])[0]);
        try {
            try {
                throw new CodeException(7, new IOException("broken"));
            } finally {
                System.out.println("on the way");
            }
        } catch (CodeException e) {
            System.out.println(e.getMessage() + " " + e.getCause());
        }
    }
}
