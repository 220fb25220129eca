package java.util.concurrent.atomic;

import java.util.function.IntBinaryOperator;
import java.util.function.IntUnaryOperator;

/** A number that changes: there is one thread, so that nothing comes between. */
public class AtomicInteger extends Number {
    private int value;

    public AtomicInteger() {
    }

    public AtomicInteger(int value) {
        this.value = value;
    }

    public final int get() {
        return value;
    }

    public final void set(int value) {
        this.value = value;
    }

    public final void lazySet(int value) {
        this.value = value;
    }

    public final int getAndSet(int value) {
        int old = this.value;
        this.value = value;
        return old;
    }

    public final boolean compareAndSet(int expected, int value) {
        boolean same = this.value == expected;
        if (same) {
            this.value = value;
        }
        return same;
    }

    public final int getAndIncrement() {
        return getAndAdd(1);
    }

    public final int getAndDecrement() {
        return getAndAdd(-1);
    }

    public final int getAndAdd(int more) {
        return getAndSet(value + more);
    }

    public final int incrementAndGet() {
        return addAndGet(1);
    }

    public final int decrementAndGet() {
        return addAndGet(-1);
    }

    public final int addAndGet(int more) {
        value += more;
        return value;
    }

    public final int getAndUpdate(IntUnaryOperator change) {
        return getAndSet(change.applyAsInt(value));
    }

    public final int updateAndGet(IntUnaryOperator change) {
        value = change.applyAsInt(value);
        return value;
    }

    public final int getAndAccumulate(int other, IntBinaryOperator join) {
        return getAndSet(join.applyAsInt(value, other));
    }

    public final int accumulateAndGet(int other, IntBinaryOperator join) {
        value = join.applyAsInt(value, other);
        return value;
    }

    public int intValue() {
        return value;
    }

    public long longValue() {
        return value;
    }

    public String toString() {
        return String.valueOf(value);
    }
}
