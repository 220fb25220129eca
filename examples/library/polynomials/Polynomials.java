import java.util.*;
import java.util.regex.Matcher;
import java.util.regex.Pattern;

/** Polynomials with whole coefficients: read, written, added, multiplied, divided, and what they are somewhere. */
public class Polynomials {
    static final class Polynomial {
        private static final Pattern TERM = Pattern.compile("([+-]?)\\s*(\\d*)(x(?:\\^(\\d+))?)?");
        private final NavigableMap<Integer, Long> terms = new TreeMap<>();

        Polynomial() {}

        Polynomial(long coefficient, int power) {
            add(coefficient, power);
        }

        private void add(long coefficient, int power) {
            long sum = coefficient + (terms.containsKey(power) ? terms.get(power) : 0);
            if (sum == 0) terms.remove(power); else terms.put(power, sum);
        }

        static Polynomial of(String text) {
            Polynomial found = new Polynomial();
            Matcher matcher = TERM.matcher(text.replace(" ", ""));
            int end = 0;
            while (matcher.find()) {
                if (matcher.group().isEmpty()) continue;
                if (matcher.start() != end) break;
                end = matcher.end();
                String digits = matcher.group(2), power = matcher.group(4);
                if (digits.isEmpty() && matcher.group(3) == null) throw new IllegalArgumentException("a sign alone in " + text);
                long coefficient = digits.isEmpty() ? 1 : Long.parseLong(digits);
                int exponent = matcher.group(3) == null ? 0 : power == null ? 1 : Integer.parseInt(power);
                found.add(matcher.group(1).equals("-") ? -coefficient : coefficient, exponent);
            }
            if (end != text.replace(" ", "").length()) throw new IllegalArgumentException("at " + end + " of " + text);
            return found;
        }

        int degree() { return terms.isEmpty() ? -1 : terms.lastKey(); }

        Polynomial plus(Polynomial other) {
            Polynomial sum = new Polynomial();
            sum.terms.putAll(terms);
            for (Map.Entry<Integer, Long> it : other.terms.entrySet()) sum.add(it.getValue(), it.getKey());
            return sum;
        }

        Polynomial times(Polynomial other) {
            Polynomial product = new Polynomial();
            for (Map.Entry<Integer, Long> a : terms.entrySet()) {
                for (Map.Entry<Integer, Long> b : other.terms.entrySet()) product.add(a.getValue() * b.getValue(), a.getKey() + b.getKey());
            }
            return product;
        }

        Polynomial[] over(Polynomial divisor) {
            if (divisor.terms.isEmpty()) throw new ArithmeticException("over nothing");
            Polynomial quotient = new Polynomial(), rest = this;
            while (rest.degree() >= divisor.degree()) {
                long top = rest.terms.lastEntry().getValue(), by = divisor.terms.lastEntry().getValue();
                if (top % by != 0) break;
                Polynomial term = new Polynomial(top / by, rest.degree() - divisor.degree());
                quotient = quotient.plus(term);
                rest = rest.plus(term.times(divisor).times(new Polynomial(-1, 0)));
            }
            return new Polynomial[] {quotient, rest};
        }

        Polynomial derived() {
            Polynomial found = new Polynomial();
            for (Map.Entry<Integer, Long> it : terms.tailMap(1, true).entrySet()) found.add(it.getValue() * it.getKey(), it.getKey() - 1);
            return found;
        }

        long at(long x) {
            long value = 0;
            int power = degree();
            for (Map.Entry<Integer, Long> it : terms.descendingMap().entrySet()) {
                for (; power > it.getKey(); power--) value *= x;
                value += it.getValue();
            }
            for (; power > 0; power--) value *= x;
            return value;
        }

        List<Long> roots() {
            List<Long> found = new ArrayList<>();
            if (terms.isEmpty()) return found;
            long lowest = Math.abs(terms.firstEntry().getValue());
            if (terms.firstKey() > 0) found.add(0L);
            for (long d = 1; d <= lowest; d++) {
                if (lowest % d != 0) continue;
                if (at(d) == 0) found.add(d);
                if (at(-d) == 0) found.add(-d);
            }
            Collections.sort(found);
            return found;
        }

        @Override public boolean equals(Object o) { return o instanceof Polynomial && terms.equals(((Polynomial) o).terms); }
        @Override public int hashCode() { return terms.hashCode(); }

        @Override
        public String toString() {
            if (terms.isEmpty()) return "0";
            StringBuilder text = new StringBuilder();
            for (int power : terms.descendingKeySet()) {
                long c = terms.get(power);
                text.append(text.length() == 0 ? c < 0 ? "-" : "" : c < 0 ? " - " : " + ");
                if (Math.abs(c) != 1 || power == 0) text.append(Math.abs(c));
                if (power > 0) text.append('x');
                if (power > 1) text.append('^').append(power);
            }
            return text.toString();
        }
    }

    public static void main(String[] args) {
        Polynomial a = Polynomial.of("x^3 - 6x^2 + 11x - 6"), b = Polynomial.of("2x - 7 + x^2 - x - x + 7"), c = Polynomial.of("x - 2");
        System.out.println(a + " | " + b + " | " + c);
        System.out.println(a.plus(b) + " | " + a.times(c) + " | " + Arrays.toString(a.over(c)) + " | " + Arrays.toString(b.over(c)));
        System.out.println(a.derived() + " | " + b.derived().derived().derived() + " | " + a.roots() + " | " + b.times(c).roots());
        for (int x = -2; x < 5; x++) System.out.print(a.at(x) + (x < 4 ? " " : "\n"));
        Polynomial power = new Polynomial(1, 0);
        Map<Polynomial, Integer> seen = new HashMap<>();
        for (int i = 0; i < 7; i++) {
            seen.put(power, i);
            power = power.times(Polynomial.of("x+1"));
        }
        System.out.println(power + " " + seen.get(Polynomial.of("1+2x+x^2")) + " " + seen.get(c) + " " + a.hashCode());
        for (String wrong : new String[] {"2y", "x^2 + ", "3x^", "x ** 2"}) {
            try {
                System.out.println(Polynomial.of(wrong));
            } catch (IllegalArgumentException e) {
                System.out.println(e.getMessage());
            }
        }
    }
}
