/** Reads a calculation: sums of products of numbers and of calculations in brackets. */
class Parser {
    private final char[] line;
    private final int length;
    private int place;

    Parser(char[] line, int length) {
        this.line = line;
        this.length = length;
    }

    Expression whole() throws SyntaxException {
        Expression result = sum();
        if (place < length) {
            throw fault("more than expected");
        }
        return result;
    }

    private Expression sum() throws SyntaxException {
        Expression result = product();
        while (at('+') || at('-')) {
            result = new Expression.Operation(result, line[place++], product());
        }
        return result;
    }

    private Expression product() throws SyntaxException {
        Expression result = factor();
        while (at('*') || at('/') || at('%')) {
            char sign = line[place++];
            result = new Expression.Operation(result, sign, factor());
        }
        return result;
    }

    private Expression factor() throws SyntaxException {
        if (at('(')) {
            place++;
            Expression result = sum();
            if (!at(')')) {
                throw fault("bracket expected");
            }
            place++;
            return result;
        }
        boolean negative = at('-');
        if (negative) {
            place++;
        }
        if (!atDigit()) {
            throw fault("number expected");
        }
        int number = 0;
        while (atDigit()) {
            number = number * 10 + (line[place++] - '0');
        }
        return new Expression.Constant(negative ? -number : number);
    }

    private boolean at(char sign) {
        return place < length && line[place] == sign;
    }

    private boolean atDigit() {
        return place < length && line[place] >= '0' && line[place] <= '9';
    }

    private SyntaxException fault(String message) {
        return new SyntaxException(message, place);
    }
}
