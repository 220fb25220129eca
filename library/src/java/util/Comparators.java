package java.util;

import java.util.function.Function;
import java.util.function.ToIntFunction;
import java.util.function.ToLongFunction;

/** The orders that are made of others. */
final class Comparators {
    private Comparators() {
    }

    static final class Natural<T extends Comparable<? super T>> implements Comparator<T> {
        public int compare(T a, T b) {
            return a.compareTo(b);
        }

        public Comparator<T> reversed() {
            return new Reverse<T>(this);
        }
    }

    static final class Reverse<T> implements Comparator<T> {
        private final Comparator<T> of;

        Reverse(Comparator<T> of) {
            this.of = of;
        }

        public int compare(T a, T b) {
            return of.compare(b, a);
        }

        public Comparator<T> reversed() {
            return of;
        }
    }

    static final class Then<T> implements Comparator<T> {
        private final Comparator<? super T> first;
        private final Comparator<? super T> second;

        Then(Comparator<? super T> first, Comparator<? super T> second) {
            this.first = first;
            this.second = Objects.requireNonNull(second);
        }

        public int compare(T a, T b) {
            int c = first.compare(a, b);
            return c != 0 ? c : second.compare(a, b);
        }
    }

    static final class By<T, U> implements Comparator<T> {
        private final Function<? super T, ? extends U> key;
        private final Comparator<? super U> order;

        By(Function<? super T, ? extends U> key, Comparator<? super U> order) {
            this.key = Objects.requireNonNull(key);
            this.order = Objects.requireNonNull(order);
        }

        public int compare(T a, T b) {
            return order.compare(key.apply(a), key.apply(b));
        }
    }

    static final class Nulls<T> implements Comparator<T> {
        private final boolean first;
        private final Comparator<? super T> of;

        Nulls(boolean first, Comparator<? super T> of) {
            this.first = first;
            this.of = of;
        }

        public int compare(T a, T b) {
            if (a == null) {
                return b == null ? 0 : first ? -1 : 1;
            }
            return b == null ? first ? 1 : -1 : of == null ? 0 : of.compare(a, b);
        }
    }

    static final class ByInt<T> implements Comparator<T> {
        private final ToIntFunction<? super T> key;

        ByInt(ToIntFunction<? super T> key) {
            this.key = Objects.requireNonNull(key);
        }

        public int compare(T a, T b) {
            return Integer.compare(key.applyAsInt(a), key.applyAsInt(b));
        }
    }

    static final class ByLong<T> implements Comparator<T> {
        private final ToLongFunction<? super T> key;

        ByLong(ToLongFunction<? super T> key) {
            this.key = Objects.requireNonNull(key);
        }

        public int compare(T a, T b) {
            return Long.compare(key.applyAsLong(a), key.applyAsLong(b));
        }
    }
}
