package java.util.concurrent.atomic;

public class AtomicReference<V> implements java.io.Serializable {
    private V value;

    public AtomicReference() {
    }

    public AtomicReference(V value) {
        this.value = value;
    }

    public final V get() {
        return value;
    }

    public final void set(V value) {
        this.value = value;
    }

    public final void lazySet(V value) {
        this.value = value;
    }

    public final V getAndSet(V value) {
        V old = this.value;
        this.value = value;
        return old;
    }

    public final boolean compareAndSet(V expected, V value) {
        boolean same = this.value == expected;
        if (same) {
            this.value = value;
        }
        return same;
    }

    public final V getAndUpdate(java.util.function.UnaryOperator<V> change) {
        return getAndSet(change.apply(value));
    }

    public final V updateAndGet(java.util.function.UnaryOperator<V> change) {
        value = change.apply(value);
        return value;
    }

    public final V getAndAccumulate(V other, java.util.function.BinaryOperator<V> join) {
        return getAndSet(join.apply(value, other));
    }

    public final V accumulateAndGet(V other, java.util.function.BinaryOperator<V> join) {
        value = join.apply(value, other);
        return value;
    }

    public String toString() {
        return String.valueOf(value);
    }
}
