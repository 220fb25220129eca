package java.util.function;

/** A test and another, or one turned. */
final class BiTest<T, U> implements BiPredicate<T, U> {
    private final BiPredicate<T, U> one;
    private final boolean enough;
    private final BiPredicate<? super T, ? super U> other;

    BiTest(BiPredicate<T, U> one, boolean enough, BiPredicate<? super T, ? super U> other) {
        this.one = one;
        this.enough = enough;
        this.other = other;
    }

    public boolean test(T t, U u) {
        boolean passed = one.test(t, u);
        return other == null ? !passed : passed == enough ? passed : other.test(t, u);
    }
}
