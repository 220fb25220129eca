import java.util.ArrayList;
import java.util.Arrays;
import java.util.Collections;
import java.util.HashSet;
import java.util.List;
import java.util.Scanner;
import java.util.Set;
import java.util.TreeSet;

/** Fractions as values: arithmetic, order, equality, and equations that are solved with them. */
public class Fractions {
    static final class Fraction implements Comparable<Fraction> {
        static final Fraction ZERO = new Fraction(0, 1);
        static final Fraction ONE = new Fraction(1, 1);
        private final long top;
        private final long bottom;

        Fraction(long top, long bottom) {
            if (bottom == 0) throw new ArithmeticException("no fraction has 0 below: " + top + "/0");
            long common = common(Math.abs(top), Math.abs(bottom));
            int sign = bottom < 0 ? -1 : 1;
            this.top = sign * top / common;
            this.bottom = sign * bottom / common;
        }

        private static long common(long a, long b) {
            while (b != 0) {
                long rest = a % b;
                a = b;
                b = rest;
            }
            return a;
        }

        static Fraction of(String text) {
            int slash = text.indexOf('/');
            if (slash < 0) return new Fraction(Long.parseLong(text), 1);
            return new Fraction(Long.parseLong(text.substring(0, slash)), Long.parseLong(text.substring(slash + 1)));
        }

        static Fraction sum(Fraction... all) {
            Fraction sum = ZERO;
            for (Fraction it : all) sum = sum.plus(it);
            return sum;
        }

        Fraction plus(Fraction o) { return new Fraction(top * o.bottom + o.top * bottom, bottom * o.bottom); }
        Fraction minus(Fraction o) { return plus(o.negated()); }
        Fraction times(Fraction o) { return new Fraction(top * o.top, bottom * o.bottom); }
        Fraction over(Fraction o) { return new Fraction(top * o.bottom, bottom * o.top); }
        Fraction negated() { return new Fraction(-top, bottom); }
        boolean isZero() { return top == 0; }

        @Override public int compareTo(Fraction o) { return Long.compare(top * o.bottom, o.top * bottom); }
        @Override public boolean equals(Object o) {
            if (this == o) return true;
            if (!(o instanceof Fraction)) return false;
            Fraction other = (Fraction) o;
            return top == other.top && bottom == other.bottom;
        }
        @Override public int hashCode() { return 31 * Long.hashCode(top) + Long.hashCode(bottom); }
        @Override public String toString() { return bottom == 1 ? Long.toString(top) : top + "/" + bottom; }
    }

    static class NoSolutionException extends Exception {
        NoSolutionException(int column) { super("column " + column + " has no pivot"); }
    }

    /** Solves n equations, each a row of n + 1 fractions, by Gauss's way. */
    static List<Fraction> solved(Fraction[][] rows) throws NoSolutionException {
        int n = rows.length;
        for (int column = 0; column < n; column++) {
            int pivot = column;
            while (pivot < n && rows[pivot][column].isZero()) pivot++;
            if (pivot == n) throw new NoSolutionException(column);
            Fraction[] kept = rows[pivot];
            rows[pivot] = rows[column];
            rows[column] = kept;
            for (int r = 0; r < n; r++) {
                if (r == column) continue;
                Fraction factor = rows[r][column].over(kept[column]);
                for (int c = column; c <= n; c++) rows[r][c] = rows[r][c].minus(factor.times(kept[c]));
            }
        }
        List<Fraction> found = new ArrayList<>(n);
        for (int r = 0; r < n; r++) found.add(rows[r][n].over(rows[r][r]));
        return found;
    }

    static List<Fraction> egyptian(Fraction f) {
        List<Fraction> parts = new ArrayList<>();
        while (!f.isZero()) {
            Fraction part = new Fraction(1, (f.bottom + f.top - 1) / f.top);
            parts.add(part);
            f = f.minus(part);
        }
        return parts;
    }

    public static void main(String[] args) {
        Scanner in = new Scanner(System.in);
        int count = in.nextInt();
        for (int k = 0; k < count; k++) {
            int n = in.nextInt();
            Fraction[][] rows = new Fraction[n][n + 1];
            for (Fraction[] row : rows) for (int c = 0; c <= n; c++) row[c] = Fraction.of(in.next());
            System.out.println(Arrays.deepToString(rows));
            try {
                System.out.println("  " + solved(rows));
            } catch (NoSolutionException e) {
                System.out.println("  " + e.getMessage());
            }
        }
        Set<Fraction> farey = new TreeSet<>(), seen = new HashSet<>();
        int equal = 0;
        for (int bottom = 1; bottom <= 7; bottom++) {
            for (int top = 0; top <= bottom; top++) {
                Fraction f = new Fraction(top, bottom);
                farey.add(f);
                if (!seen.add(f)) equal++;
            }
        }
        System.out.println(farey + " " + equal + " " + seen.equals(farey));
        System.out.println(egyptian(new Fraction(7, 15)) + " " + egyptian(new Fraction(5, 121).plus(new Fraction(1, 2))));
        System.out.println(Fraction.sum() + " " + Fraction.sum(new Fraction(1, 2), new Fraction(-1, 3), new Fraction(3, -4)));
        System.out.println(Collections.max(farey) + " " + Collections.min(farey, Collections.<Fraction>reverseOrder()) + " "
            + new Fraction(6, 3).hashCode());
        try {
            Fraction.ONE.over(Fraction.ZERO);
        } catch (ArithmeticException e) {
            System.out.println(e.getMessage());
        }
        try {
            Fraction.of("1/x");
        } catch (NumberFormatException e) {
            System.out.println(e.getMessage());
        }
    }
}
