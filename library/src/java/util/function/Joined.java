package java.util.function;

import java.util.Comparator;
import java.util.Objects;

/** Another function behind one, or the one of two that comes last in an order. */
final class Joined implements BinaryOperator<Object> {
    private final BiFunction<Object, Object, Object> one;
    private final Object other;

    Joined(BiFunction<?, ?, ?> one, Object other) {
        this.one = (BiFunction<Object, Object, Object>) one;
        this.other = Objects.requireNonNull(other);
    }

    public Object apply(Object a, Object b) {
        return one != null ? ((Function<Object, Object>) other).apply(one.apply(a, b))
            : ((Comparator<Object>) other).compare(a, b) >= 0 ? a : b;
    }
}
