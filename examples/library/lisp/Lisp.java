import java.util.*;

/** A small Lisp: lists, symbols that there is one of, functions as values, and what goes wrong in them. */
public class Lisp {
    static class LispError extends RuntimeException {
        LispError(String message) {
            super(message);
        }
    }

    static final class Symbol {
        private static final Map<String, Symbol> ALL = new HashMap<>();
        private final String name;

        private Symbol(String name) {
            this.name = name;
        }

        static Symbol of(String name) {
            Symbol symbol = ALL.get(name);
            if (symbol == null) ALL.put(name, symbol = new Symbol(name));
            return symbol;
        }

        @Override
        public String toString() {
            return name;
        }
    }

    static abstract class Function {
        final String name;

        Function(String name) {
            this.name = name;
        }

        abstract Object of(List<Object> values);

        @Override
        public String toString() {
            return "#<" + name + ">";
        }
    }

    static abstract class Sum extends Function {
        Sum(String name) {
            super(name);
        }

        @Override
        Object of(List<Object> values) {
            long result = (Long) values.get(0);
            for (Object value : values.subList(1, values.size())) result = next(result, (Long) value);
            return result;
        }

        abstract long next(long a, long b);
    }

    static class Scope {
        private final Map<Symbol, Object> values = new HashMap<>();
        private final Scope around;

        Scope(Scope around) {
            this.around = around;
        }

        Object get(Symbol name) {
            for (Scope s = this; s != null; s = s.around) {
                if (s.values.containsKey(name)) return s.values.get(name);
            }
            throw new LispError("nothing is called " + name);
        }
    }

    static final Symbol QUOTE = Symbol.of("quote"), IF = Symbol.of("if"), DEFINE = Symbol.of("define"), LAMBDA = Symbol.of("lambda");

    private final Deque<String> tokens;

    Lisp(String text) {
        tokens = new ArrayDeque<>(Arrays.asList(text.replaceAll("([()'])", " $1 ").trim().split("\\s+")));
    }

    Object read() {
        String token = tokens.poll();
        if (token == null) throw new LispError("the end is early");
        switch (token) {
            case "(":
                List<Object> list = new ArrayList<>();
                while (!")".equals(tokens.peek())) list.add(read());
                tokens.pop();
                return list;
            case ")":
                throw new LispError("a ) is early");
            case "'":
                return Arrays.asList(QUOTE, read());
            case "#t":
            case "#f":
                return token.equals("#t");
            default:
                return token.matches("[+-]?\\d+") ? (Object) Long.valueOf(token) : Symbol.of(token);
        }
    }

    static String shown(Object o) {
        if (o instanceof Boolean) return (Boolean) o ? "#t" : "#f";
        if (!(o instanceof List)) return String.valueOf(o);
        StringJoiner shown = new StringJoiner(" ", "(", ")");
        for (Object item : (List<?>) o) shown.add(shown(item));
        return shown.toString();
    }

    @SuppressWarnings("unchecked")
    static Object value(Object o, Scope scope) {
        while (o instanceof List && !((List<?>) o).isEmpty()) {
            List<Object> form = (List<Object>) o;
            Object head = form.get(0);
            if (head == QUOTE) return form.get(1);
            if (head == LAMBDA) return lambda("lambda", (List<Object>) form.get(1), form.get(2), scope);
            if (head == IF) {
                o = Boolean.FALSE.equals(value(form.get(1), scope)) ? form.get(3) : form.get(2);
                continue;
            }
            if (head == DEFINE) {
                List<Object> names = (List<Object>) form.get(1);
                Symbol name = (Symbol) names.get(0);
                scope.values.put(name, lambda(name.toString(), names.subList(1, names.size()), form.get(2), scope));
                return name;
            }
            Object function = value(head, scope);
            if (!(function instanceof Function)) throw new LispError(shown(function) + " is no function");
            List<Object> values = new ArrayList<>();
            for (ListIterator<Object> it = form.listIterator(1); it.hasNext(); ) values.add(value(it.next(), scope));
            return ((Function) function).of(values);
        }
        return o instanceof Symbol ? scope.get((Symbol) o) : o;
    }

    static Function lambda(String name, final List<Object> names, final Object body, final Scope around) {
        return new Function(name) {
            @Override
            Object of(List<Object> values) {
                if (values.size() != names.size()) throw new LispError(this + " takes " + names.size() + ", not " + values.size());
                Scope scope = new Scope(around);
                for (int i = 0; i < values.size(); i++) scope.values.put((Symbol) names.get(i), values.get(i));
                return value(body, scope);
            }
        };
    }

    static Scope world() {
        Function[] functions = {
            new Sum("+") { long next(long a, long b) { return Math.addExact(a, b); } },
            new Sum("-") { long next(long a, long b) { return Math.subtractExact(a, b); } },
            new Sum("*") { long next(long a, long b) { return Math.multiplyExact(a, b); } },
            new Sum("/") { long next(long a, long b) { return a / b; } },
            new Function("<") { Object of(List<Object> v) { return (Long) v.get(0) < (Long) v.get(1); } },
            new Function("=") { Object of(List<Object> v) { return v.get(0).equals(v.get(1)); } },
            new Function("list") { Object of(List<Object> v) { return v; } },
            new Function("first") { Object of(List<Object> v) { return ((List<?>) v.get(0)).get(0); } },
            new Function("rest") { Object of(List<Object> v) { List<?> l = (List<?>) v.get(0); return l.subList(1, l.size()); } },
            new Function("cons") {
                Object of(List<Object> v) {
                    List<Object> all = new LinkedList<Object>((List<?>) v.get(1));
                    all.add(0, v.get(0));
                    return all;
                }
            },
        };
        Scope world = new Scope(null);
        for (Function function : functions) world.values.put(Symbol.of(function.name), function);
        return world;
    }

    public static void main(String[] args) {
        Scope world = world();
        for (Scanner in = new Scanner(System.in); in.hasNextLine(); ) {
            String line = in.nextLine();
            String said;
            try {
                said = shown(value(new Lisp(line).read(), world));
            } catch (LispError e) {
                said = e.getMessage();
            } catch (ArithmeticException | IndexOutOfBoundsException e) {
                said = e.getClass().getSimpleName() + ": " + e.getMessage();
            } catch (ClassCastException e) {
                said = "of another type";
            }
            System.out.println(line + "\n  " + said);
        }
        value(new Lisp("(+ 1 (first '(#t)))").read(), world);
    }
}
