package java.util.function;

import java.util.Objects;

public interface Predicate<T> {
    boolean test(T t);

    default Predicate<T> and(Predicate<? super T> other) {
        return new Test<T>(this, false, Objects.requireNonNull(other));
    }

    default Predicate<T> or(Predicate<? super T> other) {
        return new Test<T>(this, true, Objects.requireNonNull(other));
    }

    default Predicate<T> negate() {
        return new Test<T>(this, false, null);
    }

    static <T> Predicate<T> isEqual(Object other) {
        return new Predicate<T>() {
            public boolean test(T t) {
                return Objects.equals(other, t);
            }
        };
    }
}
