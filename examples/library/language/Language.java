import java.util.ArrayList;
import java.util.Arrays;
import java.util.Collections;
import java.util.List;

/** The language itself: overloads, varargs, boxes, labels, switches that fall through, shifts, casts, and in which order all happens. */
public class Language {
    static final StringBuilder ORDER = new StringBuilder();

    static int step(int n) {
        ORDER.append(n);
        return n;
    }

    static String of(int x) { return "int"; }
    static String of(long x) { return "long"; }
    static String of(Integer x) { return "Integer"; }
    static String of(Object x) { return "Object"; }
    static String of(int... x) { return "int[" + x.length + "]"; }
    static String of(String x, Object... more) { return "String and " + more.length; }
    static String of(char x) { return "char"; }

    static int sum(Integer... numbers) {
        int sum = 0;
        for (Integer n : numbers) sum += n == null ? 100 : n;
        return sum;
    }

    static <T extends Comparable<T>> T largest(List<? extends T> items) {
        T best = null;
        for (T it : items) if (best == null || it.compareTo(best) > 0) best = it;
        return best;
    }

    static class Base {
        static String made = "";
        protected String name = begin("field of base");

        static { made += "static of base, "; }
        { begin("block of base"); }

        Base() {
            begin("base");
            hook();
        }

        static String begin(String what) {
            made += what + ", ";
            return what;
        }

        void hook() { begin("hook of base"); }

        static String who() { return "base"; }
    }

    static class Derived extends Base {
        private int value = 5;
        protected String name = begin("field of derived");

        static { made += "static of derived, "; }

        Derived() {
            this(1);
            begin("derived");
        }

        Derived(int n) {
            super();
            begin("derived " + (value + n));
        }

        @Override
        void hook() { begin("hook sees " + value); }

        static String who() { return "derived"; }

        String names() { return name + " over " + super.name + " and " + ((Base) this).name; }
    }

    static String days(int month) {
        String text = "";
        switch (month) {
            case 2:
                text += "short ";
            case 4: case 6: case 9: case 11:
                text += "thirty at most ";
                break;
            default:
                text += "thirty-one ";
            case 100:
                text += "or none ";
        }
        return text.trim();
    }

    public static void main(String... args) {
        byte b = 10;
        short s = 20;
        char c = 'x';
        long l = 1;
        System.out.println(of(b) + " " + of(s) + " " + of(c) + " " + of(l) + " " + of(Integer.valueOf(1)) + " " + of(1, 2) + " " + of()
            + " " + of("x") + " " + of("x", 1, null)
            + " " + of((Object) "x") + " " + of(Long.valueOf(1)) + " " + of('x' + 1) + " " + of(new int[3]));
        System.out.println(sum() + " " + sum(1, null, 3) + " " + sum(new Integer[] {4, 5}) + " " + largest(Arrays.asList(3, 9, 4)) + " "
            + largest(Collections.<String>emptyList()));
        int[] a = {0, 0, 0, 0};
        int i = 1;
        a[i] = i = 2;
        a[i++] += i++ * 10 + i;
        a[step(3)] = step(1) + step(2) * step(4);
        System.out.println(Arrays.toString(a) + " " + i + " " + ORDER + " " + (step(5) > 4 || step(6) > 5) + (step(7) < 5 && step(8) > 5)
            + (step(9) < 0 | step(0) == 0) + " " + ORDER);
        i = i++ + ++i;
        System.out.println(i + " " + (i-- - --i) + " " + i + " " + -i + " " + ~i + " " + (i & 6 | 9 ^ 3) + " "
            + (i == 10 ? "ten" : i > 5 ? "more" : "less"));
        b += 120;
        s *= 2000;
        c += i > 0 ? 1 : 0;
        System.out.println(b + " " + s + " " + c + " " + (int) c + " " + (char) 97 + (byte) 200 + " " + (short) 70000 + " "
            + (int) 5_000_000_000L + " " + (byte) '\u00e9' + " " + (long) 'a');
        System.out.println((-17 >> 2) + " " + (-17 >>> 28) + " " + (1 << 33) + " " + (1L << 33) + " " + (-17 / 4) + " " + (-17 % 4) + " "
            + (5 & -5) + " " + 0b1011 + 0x1F + 017 + " " + 'a' + 1
            + " " + (char) ('a' + 1) + " " + (Integer.MAX_VALUE + 1) + " " + Long.MIN_VALUE / -1 + " " + (byte) (127 + 1));
        Integer small = 127, same = 127, large = 1000, other = 1000;
        Long longs = 127L;
        System.out.println((small == same) + " " + large.equals(other) + " " + (large <= other && large >= other) + " "
            + longs.equals(127) + " " + longs.equals(127L) + " " + (longs == 127));
        new Derived();
        System.out.println(Base.made);
        Base base = new Derived(3);
        System.out.println(base.name + "; " + ((Derived) base).name + "; " + ((Derived) base).names() + "; " + Base.who() + " "
            + Derived.who());
        for (int month : new int[] {2, 4, 7, 100}) System.out.print(days(month) + "; ");
        System.out.println();
        StringBuilder way = new StringBuilder();
        outer:
        for (int row = 0; ; row++) {
            for (int column = 0; column < 4; column++) {
                if (column == row) continue outer;
                if (row + column == 5) break outer;
                way.append(row).append(column).append(' ');
            }
        }
        int n = 0;
        do {
            n += 3;
            if (n % 2 == 0) continue;
            way.append(n).append(',');
        } while (n < 12);
        block: {
            if (n == 12) break block;
            way.append("never");
        }
        System.out.println(way);
        int[][] ragged = {{1}, {}, {1, 2, 3}, new int[2]};
        int[][][] deep = new int[2][3][];
        int count = 0;
        for (int[] row : ragged) for (int x : row) count += x + 1;
        System.out.println(count + " " + ragged[2].length + " " + (deep[1][2] == null) + " " + deep[0].length + " "
            + Arrays.deepToString(ragged));
        String x = "con", y = "stant", z = "constant";
        final String fx = "con";
        System.out.println((z == "con" + "stant") + " " + (z == fx + "stant") + " " + z.equals(x + y) + " " + x + 1 + 2 + " " + (1 + 2)
            + x + " " + null + 'c' + true + 1L);
        Object o = new int[] {1, 2};
        List<Object> kinds = new ArrayList<>(Arrays.asList(1, 2L, 'c', "s", true, (short) 3, (byte) 4, o));
        StringBuilder found = new StringBuilder();
        for (Object it : kinds) {
            found.append(it instanceof Integer ? "I" : it instanceof Number ? "N" : it instanceof Comparable ? "C" : it instanceof int[]
                ? "[" + ((int[]) it).length : "?");
        }
        System.out.println(found + " " + kinds.contains(2) + kinds.contains(2L) + kinds.indexOf('c'));
    }
}
