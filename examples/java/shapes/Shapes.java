import host.Io;

/** What only large or odd methods have: each kind of stack map frame and of item in it. */
public class Shapes {
    private final int[] held = {3, 1, 2};
    private int next;

    public static void main(String[] arguments) {
        print(Checksum.of("123456789"));
        print(Wide.sum(10000, "abc"));
        line();
        Shapes shapes = new Shapes();
        print(shapes.small(arguments.length));
        print(shapes.small(5));
        print(far(3, 4));
        print(far(0, 4));
        print(locals(6, null));
        print(locals(0, new int[][] {{1, 2}, {3}, null}));
        print(uninitialized(true));
        print(uninitialized(false));
        print(deep(9, true));
        print(deep(9, false));
        line();
        print(nested(0));
        print(nested(1));
        print(nested(2));
        print(nested(3));
        print(nested(4));
        line();
        objects(new Object[] {"text", new int[2], new Pair.Twin(4, true), shapes, null, new String[2][1]});
    }

    /** The same locals with an empty stack, and with one item on it. */
    private int small(int number) {
        if (number == 0) {
            return number > next ? 1 : 2;
        }
        return held[next++] + (number < 0 ? -number : number);
    }

    /** Frames more than 63 bytes apart. */
    private static long far(int dividend, long factor) {
        if (dividend == 0) {
            factor = factor * factor + 1000000000L * factor - factor / 3L + factor % 7L;
            factor = factor * factor + 1000000000L * factor - factor / 3L + factor % 7L;
            factor = factor * factor + 1000000000L * factor - factor / 3L + factor % 7L;
            factor = factor * factor + 1000000000L * factor - factor / 3L + factor % 7L;
        }
        try {
            factor = factor * factor + 1000000000L * factor - factor / 3L + factor % 7L;
            factor = factor * factor + 1000000000L * factor - factor / 3L + factor % 7L;
            factor = factor * factor + 1000000000L * factor - factor / 3L + factor % 7L;
            return factor % 1000 / dividend;
        } catch (ArithmeticException fault) {
            return factor % 1000;
        }
    }

    /** Locals that come one, two and three at a time, and go again. */
    private static long locals(int count, int[][] rows) {
        long sum = 0;
        for (int outer = 0; outer < count; outer++) {
            int square = outer * outer;
            long cube = square * outer;
            for (int inner = 0; inner < outer; inner++) {
                sum += cube - inner;
            }
            if (sum > 100) {
                String text = "a hundred";
                char letter = text.charAt(outer);
                byte code = (byte) letter;
                while (code > 0) {
                    code <<= 1;
                    sum++;
                }
            }
        }
        if (rows != null) {
            for (int[] row : rows) {
                if (row == null) {
                    continue;
                }
                for (int number : row) {
                    sum += number;
                }
            }
        }
        return sum;
    }

    /** A branch between new and the constructor: the frames have uninitialized items. */
    private static long uninitialized(boolean large) {
        Pair first = new Pair(large ? 5 : 6, 7);
        Pair second = new Pair(large);
        Pair third = new Pair(new Pair(large ? 1 : 2, 3).first, large ? 4 : second.second);
        return first.first + second.first + second.second + third.first + third.second;
    }

    /** A branch with more on the stack: an array, null, ints and longs. */
    private static long deep(long start, boolean large) {
        int[] numbers = new int[2];
        numbers[1] = large ? 1 : 2;
        return start + chosen(null, numbers, 3L, large ? 4 : 5) * (large ? 6L : 7L);
    }

    private static long chosen(String text, int[] numbers, long factor, int summand) {
        return text == null ? numbers[1] * factor + summand : 0;
    }

    /** Handlers in handlers; the ends of the tries stand several times in the code. */
    private static int nested(int kind) {
        int trace = 0;
        for (int round = 0; round < 2; round++) {
            try {
                trace = trace * 10 + 1;
                try {
                    fail(kind);
                    trace = trace * 10 + 2;
                    if (kind == 0) {
                        continue;
                    }
                } catch (ClassCastException fault) {
                    trace = trace * 10 + 3;
                    throw new UnsupportedOperationException(fault.getMessage());
                } finally {
                    trace = trace * 10 + 4;
                    if (kind == 4) {
                        break;
                    }
                }
            } catch (IllegalArgumentException | UnsupportedOperationException fault) {
                trace = trace * 10 + 5;
            } catch (RuntimeException fault) {
                return trace;
            }
        }
        return trace;
    }

    private static void fail(int kind) {
        switch (kind) {
            case 1:
                Object object = "text";
                ((int[]) object)[0] = 1;
                return;
            case 2:
                throw new IllegalArgumentException("two");
            case 3:
                Object[] objects = new String[1];
                objects[0] = new Object();
                return;
            case 4:
                throw new IllegalStateException();
        }
    }

    /** Casts and instanceof on classes and arrays. */
    private static void objects(Object[] objects) {
        for (Object object : objects) {
            if (object instanceof String) {
                print(((String) object).length());
            } else if (object instanceof int[]) {
                print(((int[]) object).length);
            } else if (object instanceof Pair) {
                Pair pair = object instanceof Pair.Twin ? (Pair.Twin) object : (Pair) object;
                print(pair.first);
                print(pair.second);
            } else if (object instanceof Object[]) {
                Cloneable array = (Object[]) object;
                java.io.Serializable same = (Object[]) object;
                boolean nested = array != objects && array == same && array instanceof Object[][];
                print(nested ? ((Object[][]) array)[1].length : -1);
            } else {
                print(object == null ? 0 : 1);
            }
        }
        line();
    }

    private static void print(long number) {
        if (number < 0) {
            Io.write('-');
        }
        digits(number < 0 ? number : -number);
        Io.write(' ');
    }

    /** The digits of a number that isn't positive. */
    private static void digits(long negative) {
        if (negative <= -10) {
            digits(negative / 10);
        }
        Io.write((int) ('0' - negative % 10));
    }

    private static void line() {
        Io.write('\n');
    }
}
