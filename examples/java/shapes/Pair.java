/** Two numbers; its constructors decide something before they call another constructor. */
class Pair {
    final int first;
    final long second;

    Pair(int first, long second) {
        this.first = first;
        this.second = second;
    }

    /** A branch before the call: the frames there have uninitializedThis, as a local and on the stack. */
    Pair(boolean large) {
        this(large ? 1000 : 1, large ? 1000000000000L : 2L);
    }

    /** A pair of equal numbers. */
    static class Twin extends Pair {
        Twin(int number, boolean negative) {
            super(negative ? -number : number, negative ? -(long) number : number);
        }
    }
}
