package java.util.concurrent.atomic;

import java.util.function.LongBinaryOperator;
import java.util.function.LongUnaryOperator;

/** A number that changes: there is one thread, so that nothing comes between. */
public class AtomicLong extends Number {
    private long value;

    public AtomicLong() {
    }

    public AtomicLong(long value) {
        this.value = value;
    }

    public final long get() {
        return value;
    }

    public final void set(long value) {
        this.value = value;
    }

    public final void lazySet(long value) {
        this.value = value;
    }

    public final long getAndSet(long value) {
        long old = this.value;
        this.value = value;
        return old;
    }

    public final boolean compareAndSet(long expected, long value) {
        boolean same = this.value == expected;
        if (same) {
            this.value = value;
        }
        return same;
    }

    public final long getAndIncrement() {
        return getAndAdd(1);
    }

    public final long getAndDecrement() {
        return getAndAdd(-1);
    }

    public final long getAndAdd(long more) {
        return getAndSet(value + more);
    }

    public final long incrementAndGet() {
        return addAndGet(1);
    }

    public final long decrementAndGet() {
        return addAndGet(-1);
    }

    public final long addAndGet(long more) {
        value += more;
        return value;
    }

    public final long getAndUpdate(LongUnaryOperator change) {
        return getAndSet(change.applyAsLong(value));
    }

    public final long updateAndGet(LongUnaryOperator change) {
        value = change.applyAsLong(value);
        return value;
    }

    public final long getAndAccumulate(long other, LongBinaryOperator join) {
        return getAndSet(join.applyAsLong(value, other));
    }

    public final long accumulateAndGet(long other, LongBinaryOperator join) {
        value = join.applyAsLong(value, other);
        return value;
    }

    public int intValue() {
        return (int) value;
    }

    public long longValue() {
        return value;
    }

    public String toString() {
        return String.valueOf(value);
    }
}
