package java.util.function;

/** A test and another, or one turned. */
final class Test<T> implements Predicate<T> {
    private final Predicate<T> one;
    private final boolean enough;
    private final Predicate<? super T> other;

    Test(Predicate<T> one, boolean enough, Predicate<? super T> other) {
        this.one = one;
        this.enough = enough;
        this.other = other;
    }

    public boolean test(T t) {
        boolean passed = one.test(t);
        return other == null ? !passed : passed == enough ? passed : other.test(t);
    }
}
