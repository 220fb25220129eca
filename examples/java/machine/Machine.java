import host.Io;

/** Copies the input without its comments, and counts the states that it went through. */
public class Machine implements States {
    private int state = CODE;

    public static void main(String[] arguments) {
        Machine machine = new Machine();
        int sign;
        while ((sign = Io.read()) >= 0) {
            machine.take(sign);
        }
        machine.take(-1);
        for (int state = 0; state < ENTERED.length; state++) {
            if (state == STAR) {
                continue;
            }
            machine.print(machine.name(state));
            Io.write(States.isComment(state) ? '!' : ' ');
            number(ENTERED[state]);
            Io.write(state == ESCAPE ? '\n' : ' ');
        }
    }

    private void take(int sign) {
        int next = next(sign);
        if (next != state) {
            ENTERED[next]++;
        }
        state = next;
    }

    /** The next state; what is no comment is written. */
    private int next(int sign) {
        switch (state) {
            case CODE:
                if (sign == STROKE) {
                    return SLASH;
                }
                break;
            case SLASH:
                switch (sign) {
                    case '/':
                        return LINE;
                    case '*':
                        return BLOCK;
                    default:
                        Io.write(STROKE);
                        if (sign == -1) {
                            return CODE;
                        }
                }
                break;
            case LINE:
                if (sign != '\n') {
                    return LINE;
                }
                break;
            case STAR:
                if (sign == '/') {
                    return CODE;
                }
                // The star may be the first of several.
            case BLOCK:
                return sign == '*' ? STAR : BLOCK;
            case ESCAPE:
                Io.write(sign);
                return QUOTE;
            case QUOTE:
                Io.write(sign);
                return inQuote(sign);
            default:
                throw new IllegalStateException();
        }
        return inCode(sign);
    }

    private static int inQuote(int sign) {
        switch (sign) {
            case '"':
                return CODE;
            case '\\':
                return ESCAPE;
            default:
                return QUOTE;
        }
    }

    /** Signs far apart, one of them below zero. */
    private static int inCode(int sign) {
        switch (sign) {
            case -1:
                return CODE;
            case '"':
                Io.write(sign);
                return QUOTE;
            case 0xFF:
            case 0:
                return CODE;
            default:
                Io.write(sign);
                return CODE;
        }
    }

    private void print(String text) {
        for (int place = 0; place < text.length(); place++) {
            Io.write(text.charAt(place));
        }
    }

    private static void number(int number) {
        if (number >= 10) {
            number(number / 10);
        }
        Io.write('0' + number % 10);
    }
}
