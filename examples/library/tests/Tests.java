import java.util.ArrayList;
import java.util.Arrays;
import java.util.LinkedHashMap;
import java.util.List;
import java.util.Map;
import java.util.Optional;
import java.util.function.BiConsumer;
import java.util.function.BiPredicate;
import java.util.function.Function;
import java.util.function.IntPredicate;
import java.util.function.IntUnaryOperator;
import java.util.function.Supplier;

/** Tests and steps that are joined: what functions as objects are put together of. */
public class Tests {
    static final class Divides implements IntPredicate {
        private final int by;

        Divides(int by) {
            this.by = by;
        }

        @Override
        public boolean test(int n) {
            return n % by == 0;
        }
    }

    static final class Times implements IntUnaryOperator {
        private final int factor;
        private final int more;

        Times(int factor, int more) {
            this.factor = factor;
            this.more = more;
        }

        @Override
        public int applyAsInt(int n) {
            return n * factor + more;
        }
    }

    static List<Integer> passing(int below, IntPredicate test) {
        List<Integer> all = new ArrayList<>();
        for (int i = 1; i < below; i++) if (test.test(i)) all.add(i);
        return all;
    }

    static <T> Supplier<T> once(final Supplier<T> make) {
        return new Supplier<T>() {
            private Optional<T> made = Optional.empty();

            @Override
            public T get() {
                if (!made.isPresent()) made = Optional.of(make.get());
                return made.get();
            }
        };
    }

    private static final BiPredicate<String, Integer> LONGER = new BiPredicate<String, Integer>() {
        @Override
        public boolean test(String text, Integer length) {
            System.out.print("longer? ");
            return text.length() > length;
        }
    };
    private static final BiPredicate<Object, Object> ENDS = new BiPredicate<Object, Object>() {
        @Override
        public boolean test(Object text, Object end) {
            System.out.print("ends? ");
            return text.toString().endsWith(end.toString());
        }
    };

    public static void main(String[] args) {
        IntPredicate three = new Divides(3);
        IntPredicate five = new Divides(5);
        System.out.println(passing(31, three.and(five)) + " " + passing(11, three.or(five)) + " " + passing(8, three.negate()));
        System.out.println(passing(13, three.or(five).negate().and(new Divides(2))) + " " + passing(10, three.negate().negate()));
        System.out.println(LONGER.and(ENDS).test("ab1", 1) + " " + LONGER.and(ENDS).test("a", 1));
        System.out.println(LONGER.or(ENDS).test("b1", 1) + " " + LONGER.or(ENDS).test("1", 1) + " " + LONGER.negate().test("1", 1));
        IntUnaryOperator step = new Times(2, 1).andThen(new Times(10, 0));
        System.out.println(step.applyAsInt(3) + " " + new Times(2, 1).compose(new Times(10, 0)).applyAsInt(3) + " "
            + IntUnaryOperator.identity().andThen(step).applyAsInt(0));
        int[] steps = new int[6];
        Arrays.setAll(steps, step.compose(IntUnaryOperator.identity()));
        System.out.println(Arrays.toString(steps));

        final Map<String, Integer> stock = new LinkedHashMap<>();
        stock.put("bolt", 40);
        stock.put("nut", 7);
        final StringBuilder list = new StringBuilder();
        BiConsumer<Object, Integer> told = new BiConsumer<Object, Integer>() {
            @Override
            public void accept(Object name, Integer count) {
                list.append(name).append(' ').append(count);
            }
        };
        stock.forEach(told.andThen(new BiConsumer<Object, Object>() {
            @Override
            public void accept(Object name, Object count) {
                list.append(count.equals(7) ? " few\n" : "\n");
            }
        }));
        System.out.print(list);

        Supplier<Integer> total = once(new Supplier<Integer>() {
            @Override
            public Integer get() {
                System.out.print("adds up: ");
                int sum = 0;
                for (int count : stock.values()) sum += count;
                return sum;
            }
        });
        System.out.println(total.get() + " " + total.get());
        Function<Integer, String> stars = new Function<Integer, String>() {
            @Override
            public String apply(Integer n) {
                return new String(new char[n]).replace('\0', '*');
            }
        };
        System.out.println(Optional.of(stock.get("nut")).map(stars).orElse("none") + " " + Optional.ofNullable(stock.get("saw")).map(stars)
            .orElse("none"));
        for (int k = 0; k < 3; k++) {
            try {
                Object joined = k == 0 ? three.and(null) : k == 1 ? (Object) LONGER.or(null) : told.andThen(null);
                System.out.println(joined != null);
            } catch (NullPointerException e) {
                System.out.println("of what?");
            }
        }
    }
}
