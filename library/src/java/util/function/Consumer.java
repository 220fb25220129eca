package java.util.function;

public interface Consumer<T> {
    void accept(T t);

    default Consumer<T> andThen(Consumer<? super T> then) {
        final Consumer<T> one = this;
        return new Consumer<T>() {
            public void accept(T t) {
                one.accept(t);
                then.accept(t);
            }
        };
    }
}
