/** Random arguments, and what is told of a call: its answer or its exception. */
final class Draws {
    private long seed;

    Draws(long seed) {
        this.seed = seed;
    }

    int below(int n) {
        seed = seed * 6364136223846793005L + 1442695040888963407L;
        return (int) ((seed >>> 33) % n);
    }

    boolean coin() {
        return below(2) == 0;
    }

    int anInt() {
        switch (below(5)) {
            case 0:
                return below(20) - 10;
            case 1:
                return below(2) == 0 ? Integer.MAX_VALUE - below(3) : Integer.MIN_VALUE + below(3);
            case 2:
                return 1 << below(32);
            default:
                return (int) aLong();
        }
    }

    long aLong() {
        switch (below(5)) {
            case 0:
                return below(20) - 10;
            case 1:
                return below(2) == 0 ? Long.MAX_VALUE - below(3) : Long.MIN_VALUE + below(3);
            case 2:
                return 1L << below(64);
            default:
                below(2);
                return seed ^ seed >>> 17;
        }
    }

    /** A text of so many of these chars at most. */
    String text(String of, int most) {
        char[] chars = new char[below(most + 1)];
        for (int i = 0; i < chars.length; i++) {
            chars[i] = of.charAt(below(of.length()));
        }
        return new String(chars);
    }

    /** Of an exception that the machine may make itself its class alone: it knows no message. */
    static String told(Throwable t) {
        if (t instanceof NullPointerException) {
            return "NullPointerException";
        }
        if (t instanceof ArrayIndexOutOfBoundsException) {
            return "ArrayIndexOutOfBoundsException";
        }
        if (t instanceof ClassCastException) {
            return "ClassCastException";
        }
        if (t instanceof NegativeArraySizeException) {
            return "NegativeArraySizeException";
        }
        return t.toString();
    }
}
