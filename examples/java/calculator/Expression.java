/** A calculation as a tree. */
abstract class Expression {
    abstract int value();

    /** A number. */
    static final class Constant extends Expression {
        private final int number;

        Constant(int number) {
            this.number = number;
        }

        @Override
        int value() {
            return number;
        }
    }

    /** Two calculations with a sign between them. */
    static class Operation extends Expression {
        private final Expression left;
        private final char sign;
        private final Expression right;

        Operation(Expression left, char sign, Expression right) {
            this.left = left;
            this.sign = sign;
            this.right = right;
        }

        @Override
        int value() {
            int first = left.value();
            int second = right.value();
            switch (sign) {
                case '+':
                    return first + second;
                case '-':
                    return first - second;
                case '*':
                    return first * second;
                case '/':
                    return first / second;
                case '%':
                    return first % second;
                default:
                    throw new IllegalStateException("sign");
            }
        }
    }
}
