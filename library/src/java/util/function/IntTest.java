package java.util.function;

/** A test and another, or one turned. */
final class IntTest implements IntPredicate {
    private final IntPredicate one;
    private final boolean enough;
    private final IntPredicate other;

    IntTest(IntPredicate one, boolean enough, IntPredicate other) {
        this.one = one;
        this.enough = enough;
        this.other = other;
    }

    public boolean test(int i) {
        boolean passed = one.test(i);
        return other == null ? !passed : passed == enough ? passed : other.test(i);
    }
}
