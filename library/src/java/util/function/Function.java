package java.util.function;

public interface Function<T, R> {
    R apply(T t);

    default <V> Function<V, R> compose(Function<? super V, ? extends T> before) {
        final Function<T, R> one = this;
        return new Function<V, R>() {
            public R apply(V v) {
                return one.apply(before.apply(v));
            }
        };
    }

    default <V> Function<T, V> andThen(Function<? super R, ? extends V> then) {
        final Function<T, R> one = this;
        return new Function<T, V>() {
            public V apply(T t) {
                return then.apply(one.apply(t));
            }
        };
    }

    static <T> Function<T, T> identity() {
        return new Function<T, T>() {
            public T apply(T t) {
                return t;
            }
        };
    }
}
