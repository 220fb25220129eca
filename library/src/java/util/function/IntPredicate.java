package java.util.function;

import java.util.Objects;

public interface IntPredicate {
    boolean test(int i);

    default IntPredicate and(IntPredicate other) {
        return new IntTest(this, false, Objects.requireNonNull(other));
    }

    default IntPredicate or(IntPredicate other) {
        return new IntTest(this, true, Objects.requireNonNull(other));
    }

    default IntPredicate negate() {
        return new IntTest(this, false, null);
    }
}
