import java.util.ArrayDeque;
import java.util.Deque;
import java.util.LinkedHashMap;
import java.util.Map;
import java.util.Scanner;

/** A calculator with variables: two stacks, one of numbers and one of operators. */
public class Formulas {
    private static class FormulaException extends RuntimeException {
        private final int at;

        FormulaException(String message, int at) {
            super(message + " at " + at);
            this.at = at;
        }

        int place() {
            return at;
        }
    }

    private final Map<String, Long> variables = new LinkedHashMap<>();
    private final Deque<Long> numbers = new ArrayDeque<>();
    private final Deque<Character> operators = new ArrayDeque<>();

    private static int strength(char operator) {
        switch (operator) {
            case '+':
            case '-':
                return 1;
            case '*':
            case '/':
            case '%':
                return 2;
            default:
                return 0;
        }
    }

    private void reduce() {
        char operator = operators.pop();
        long right = numbers.pop();
        long left = numbers.pop();
        switch (operator) {
            case '+':
                numbers.push(Math.addExact(left, right));
                break;
            case '-':
                numbers.push(Math.subtractExact(left, right));
                break;
            case '*':
                numbers.push(Math.multiplyExact(left, right));
                break;
            case '/':
                numbers.push(left / right);
                break;
            default:
                numbers.push(left % right);
        }
    }

    long value(String text) {
        numbers.clear();
        operators.clear();
        boolean wantsNumber = true;
        for (int i = 0; i < text.length(); i++) {
            char c = text.charAt(i);
            if (Character.isWhitespace(c)) {
                continue;
            }
            if (Character.isLetterOrDigit(c)) {
                int end = i;
                while (end < text.length() && Character.isLetterOrDigit(text.charAt(end))) {
                    end++;
                }
                String word = text.substring(i, end);
                Long number = Character.isDigit(c) ? Long.valueOf(word) : variables.get(word);
                if (number == null) {
                    throw new FormulaException("unknown name " + word, i);
                }
                numbers.push(number);
                wantsNumber = false;
                i = end - 1;
            } else if (c == '(') {
                operators.push(c);
            } else if (c == ')') {
                while (!operators.isEmpty() && operators.peek() != '(') {
                    reduce();
                }
                if (operators.isEmpty()) {
                    throw new FormulaException("no opening bracket", i);
                }
                operators.pop();
            } else if (strength(c) > 0 && !wantsNumber) {
                while (!operators.isEmpty() && strength(operators.peek()) >= strength(c)) {
                    reduce();
                }
                operators.push(c);
                wantsNumber = true;
            } else {
                throw new FormulaException("'" + c + "' is not wanted", i);
            }
        }
        while (!operators.isEmpty()) {
            if (operators.peek() == '(') {
                throw new FormulaException("no closing bracket", text.length());
            }
            reduce();
        }
        return numbers.pop();
    }

    public static void main(String[] args) {
        Formulas formulas = new Formulas();
        Scanner in = new Scanner(System.in);
        int count = in.nextInt();
        in.nextLine();
        for (int k = 1; k <= count && in.hasNextLine(); k++) {
            String line = in.nextLine();
            try {
                int equals = line.indexOf('=');
                long value = formulas.value(line.substring(equals + 1));
                if (equals > 0) {
                    formulas.variables.put(line.substring(0, equals).trim(), value);
                }
                System.out.println(k + ": " + value);
            } catch (FormulaException e) {
                System.out.println(k + ": " + e.getMessage() + (e.place() == 0 ? ", at the very front" : ""));
            } catch (ArithmeticException | java.util.NoSuchElementException e) {
                System.out.println(k + ": " + e.getMessage());
            }
        }
        System.out.println(formulas.variables);
    }
}
