import java.util.*;
import java.util.function.Consumer;
import java.util.function.Function;
import java.util.function.Predicate;

/** Iterators of one's own, and sequences that are made of sequences, each asked for no more than it has to be. */
public class Iterators {
    static abstract class Sequence<T> implements Iterable<T> {
        static Sequence<Integer> from(final int start) {
            return new Sequence<Integer>() {
                @Override
                public Iterator<Integer> iterator() {
                    return new Iterator<Integer>() {
                        private int next = start;
                        @Override public boolean hasNext() { return true; }
                        @Override public Integer next() { return next++; }
                    };
                }
            };
        }

        @SafeVarargs
        static <T> Sequence<T> of(T... items) {
            return over(Arrays.asList(items));
        }

        static <T> Sequence<T> over(final Iterable<T> items) {
            return new Sequence<T>() {
                @Override public Iterator<T> iterator() { return items.iterator(); }
            };
        }

        Sequence<T> where(final Predicate<? super T> test) {
            final Sequence<T> all = this;
            return new Sequence<T>() {
                @Override
                public Iterator<T> iterator() {
                    final Iterator<T> it = all.iterator();
                    return new Iterator<T>() {
                        private T next;
                        private boolean isReady;

                        @Override
                        public boolean hasNext() {
                            while (!isReady && it.hasNext()) {
                                next = it.next();
                                isReady = test.test(next);
                            }
                            return isReady;
                        }

                        @Override
                        public T next() {
                            if (!hasNext()) throw new NoSuchElementException("no more");
                            isReady = false;
                            return next;
                        }
                    };
                }
            };
        }

        <R> Sequence<R> each(final Function<? super T, ? extends R> made) {
            final Sequence<T> all = this;
            return new Sequence<R>() {
                @Override
                public Iterator<R> iterator() {
                    final Iterator<T> it = all.iterator();
                    return new Iterator<R>() {
                        @Override public boolean hasNext() { return it.hasNext(); }
                        @Override public R next() { return made.apply(it.next()); }
                    };
                }
            };
        }

        Sequence<T> first(final int count) {
            final Sequence<T> all = this;
            return new Sequence<T>() {
                @Override
                public Iterator<T> iterator() {
                    final Iterator<T> it = all.iterator();
                    return new Iterator<T>() {
                        private int left = count;
                        @Override public boolean hasNext() { return left > 0 && it.hasNext(); }
                        @Override public T next() { left--; return it.next(); }
                    };
                }
            };
        }

        <U> Sequence<Map.Entry<T, U>> with(final Iterable<U> others) {
            final Sequence<T> all = this;
            return new Sequence<Map.Entry<T, U>>() {
                @Override
                public Iterator<Map.Entry<T, U>> iterator() {
                    final Iterator<T> a = all.iterator();
                    final Iterator<U> b = others.iterator();
                    return new Iterator<Map.Entry<T, U>>() {
                        @Override public boolean hasNext() { return a.hasNext() && b.hasNext(); }
                        @Override public Map.Entry<T, U> next() { return new AbstractMap.SimpleImmutableEntry<>(a.next(), b.next()); }
                    };
                }
            };
        }

        List<T> listed() {
            List<T> all = new ArrayList<>();
            for (T it : this) all.add(it);
            return all;
        }
    }

    static class Even implements Predicate<Integer> {
        static int asked;
        @Override public boolean test(Integer n) { asked++; return n % 2 == 0; }
    }

    static class Square implements Function<Integer, Integer> {
        @Override public Integer apply(Integer n) { return n * n; }
    }

    /** The numbers of a square grid, from the outside to the middle. */
    static class Spiral implements Iterator<Integer> {
        private final int[][] grid;
        private int top, left, bottom, right, row, column;
        private int taken;

        Spiral(int size) {
            grid = new int[size][size];
            for (int i = 0; i < size * size; i++) grid[i / size][i % size] = i + 1;
            bottom = right = size - 1;
        }

        @Override
        public boolean hasNext() {
            return taken < grid.length * grid.length;
        }

        @Override
        public Integer next() {
            if (!hasNext()) throw new NoSuchElementException();
            int found = grid[row][column];
            taken++;
            if (row == top && column < right) column++;
            else if (column == right && row < bottom) row++;
            else if (row == bottom && column > left) column--;
            else if (row - 1 > top) row--;
            else {
                top++; left++; bottom--; right--;
                row = top;
                column = left;
            }
            return found;
        }
    }

    public static void main(String[] args) {
        Sequence<Integer> squares = Sequence.from(1).where(new Even()).each(new Square());
        System.out.println(squares.first(6).listed() + " asked " + Even.asked);
        for (Map.Entry<Integer, String> it : squares.with(Arrays.asList("one", "two", "three"))) System.out.print(it + " ");
        System.out.println("asked " + Even.asked);
        Iterator<String> none = Sequence.of("a", "bb", "").where(new Predicate<String>() {
            @Override public boolean test(String text) { return text.length() > 2; }
        }).iterator();
        try {
            none.next();
        } catch (NoSuchElementException e) {
            System.out.println(e.getMessage());
        }
        try {
            Sequence.from(0).iterator().remove();
        } catch (UnsupportedOperationException e) {
            System.out.println(e.getMessage());
        }
        final List<Integer> walked = new ArrayList<>();
        new Spiral(4).forEachRemaining(new Consumer<Integer>() {
            @Override public void accept(Integer n) { walked.add(n); }
        });
        System.out.println(walked);
        Predicate<Integer> odd = new Even().negate();
        System.out.println(Sequence.over(walked).where(odd.and(new Predicate<Integer>() {
            @Override public boolean test(Integer n) { return n > 4; }
        })).each(new Square().andThen(new Function<Integer, String>() {
            @Override public String apply(Integer n) { return "<" + n + ">"; }
        })).listed());
        ListIterator<Integer> both = walked.listIterator();
        while (both.hasNext()) {
            int at = both.nextIndex(), n = both.next();
            if (n % 3 == 0) both.remove();
            else if (n % 5 == 0) both.set(-n);
            else if (at == 2) both.add(99);
        }
        System.out.println(walked);
        StringBuilder back = new StringBuilder();
        while (both.hasPrevious()) back.append(both.previous()).append(both.hasPrevious() ? "," : "\n");
        System.out.print(back);
        walked.removeIf(new Predicate<Integer>() {
            @Override public boolean test(Integer n) { return n > 9; }
        });
        System.out.println(walked + " " + new TreeSet<>(walked).headSet(5));
    }
}
