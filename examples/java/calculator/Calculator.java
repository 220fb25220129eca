import host.Io;

/** Reads a calculation from each line of the input, and prints its result or what is wrong. */
public class Calculator {
    private static final int END = -1;

    private static int lines;
    private static int faults;

    public static void main(String[] arguments) {
        char[] line = new char[80];
        int length;
        while ((length = read(line)) != END) {
            try {
                calculate(line, length);
            } catch (SyntaxException fault) {
                faults++;
                print(fault.getMessage());
                print(" at ");
                print(fault.place());
            } catch (ArithmeticException fault) {
                faults++;
                print("no such number");
            } catch (ArrayIndexOutOfBoundsException | NegativeArraySizeException fault) {
                faults++;
                print("too long");
            } finally {
                lines++;
                Io.write('\n');
            }
        }
        print(lines);
        print(" lines, ");
        print(faults);
        print(" faults\n");
    }

    /** Reads a line; its end isn't kept. The answer is its length, or END. */
    private static int read(char[] line) {
        int length = 0;
        int next = Io.read();
        if (next == END) {
            return END;
        }
        do {
            if (next == '\n' || next == END) {
                return length;
            }
            if (length < line.length) {
                line[length++] = (char) next;
            }
            next = Io.read();
        } while (true);
    }

    private static void calculate(char[] line, int length) throws SyntaxException {
        Expression expression = new Parser(line, length).whole();
        boolean known = false;
        try {
            int value = expression.value();
            known = true;
            print(value);
        } finally {
            if (!known) {
                print("? ");
            }
        }
    }

    private static void print(String text) {
        for (int place = 0; place < text.length(); place++) {
            Io.write(text.charAt(place));
        }
    }

    private static void print(int number) {
        if (number < 0) {
            Io.write('-');
        }
        digits(number < 0 ? number : -number);
    }

    /** The digits of a number that isn't positive. */
    private static void digits(int negative) {
        if (negative <= -10) {
            digits(negative / 10);
        }
        Io.write('0' - negative % 10);
    }
}
