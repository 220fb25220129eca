package java.util.function;

import java.util.Objects;

public interface IntUnaryOperator {
    int applyAsInt(int i);

    default IntUnaryOperator andThen(IntUnaryOperator then) {
        Objects.requireNonNull(then);
        return new IntUnaryOperator() {
            public int applyAsInt(int i) {
                return then.applyAsInt(IntUnaryOperator.this.applyAsInt(i));
            }
        };
    }

    default IntUnaryOperator compose(IntUnaryOperator before) {
        return before.andThen(this);
    }

    static IntUnaryOperator identity() {
        return new IntUnaryOperator() {
            public int applyAsInt(int i) {
                return i;
            }
        };
    }
}
