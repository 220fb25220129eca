package java.util;

import java.util.function.Function;
import java.util.function.ToIntFunction;
import java.util.function.ToLongFunction;

public interface Comparator<T> {
    int compare(T a, T b);

    boolean equals(Object other);

    default Comparator<T> reversed() {
        return new Comparators.Reverse<T>(this);
    }

    default Comparator<T> thenComparing(Comparator<? super T> then) {
        return new Comparators.Then<T>(this, then);
    }

    default <U extends Comparable<? super U>> Comparator<T> thenComparing(Function<? super T, ? extends U> key) {
        return thenComparing(Comparator.<T, U>comparing(key));
    }

    default <U> Comparator<T> thenComparing(Function<? super T, ? extends U> key, Comparator<? super U> order) {
        return thenComparing(Comparator.<T, U>comparing(key, order));
    }

    static <T extends Comparable<? super T>> Comparator<T> naturalOrder() {
        return new Comparators.Natural<T>();
    }

    static <T extends Comparable<? super T>> Comparator<T> reverseOrder() {
        return Collections.<T>reverseOrder();
    }

    static <T, U extends Comparable<? super U>> Comparator<T> comparing(Function<? super T, ? extends U> key) {
        return new Comparators.By<T, U>(key, new Comparators.Natural<U>());
    }

    static <T, U> Comparator<T> comparing(Function<? super T, ? extends U> key, Comparator<? super U> order) {
        return new Comparators.By<T, U>(key, order);
    }

    static <T> Comparator<T> nullsFirst(Comparator<? super T> of) {
        return new Comparators.Nulls<T>(true, of);
    }

    static <T> Comparator<T> nullsLast(Comparator<? super T> of) {
        return new Comparators.Nulls<T>(false, of);
    }

    static <T> Comparator<T> comparingInt(ToIntFunction<? super T> key) {
        return new Comparators.ByInt<T>(key);
    }

    default Comparator<T> thenComparingInt(ToIntFunction<? super T> key) {
        return thenComparing(Comparator.<T>comparingInt(key));
    }

    static <T> Comparator<T> comparingLong(ToLongFunction<? super T> key) {
        return new Comparators.ByLong<T>(key);
    }

    default Comparator<T> thenComparingLong(ToLongFunction<? super T> key) {
        return thenComparing(Comparator.<T>comparingLong(key));
    }
}
