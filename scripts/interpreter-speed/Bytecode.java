/** A little machine of a stack and a switch, which counts the steps of the 3n + 1 problem. */
public class Bytecode {
    static final int PUSH = 0;
    static final int LOAD = 1;
    static final int STORE = 2;
    static final int ADD = 3;
    static final int MULTIPLY = 4;
    static final int HALVE = 5;
    static final int JUMP = 6;
    static final int JUMP_IF_ONE = 7;
    static final int JUMP_IF_EVEN = 8;
    static final int END = 9;

    /** Counts in the variable 1 until n, in the variable 0, is 1. */
    static final byte[] STEPS = {
        LOAD, 0, JUMP_IF_ONE, 34,
        LOAD, 0, JUMP_IF_EVEN, 20,
        LOAD, 0, PUSH, 3, MULTIPLY, PUSH, 1, ADD, STORE, 0, JUMP, 25,
        LOAD, 0, HALVE, STORE, 0,
        LOAD, 1, PUSH, 1, ADD, STORE, 1, JUMP, 0,
        END,
    };

    static int run(byte[] code, int[] stack, int[] variables) {
        int at = 0;
        int top = 0;
        int steps = 0;
        while (true) {
            steps++;
            switch (code[at]) {
                case PUSH:
                    stack[top++] = code[at + 1];
                    at += 2;
                    break;
                case LOAD:
                    stack[top++] = variables[code[at + 1]];
                    at += 2;
                    break;
                case STORE:
                    variables[code[at + 1]] = stack[--top];
                    at += 2;
                    break;
                case ADD:
                    top--;
                    stack[top - 1] += stack[top];
                    at++;
                    break;
                case MULTIPLY:
                    top--;
                    stack[top - 1] *= stack[top];
                    at++;
                    break;
                case HALVE:
                    stack[top - 1] >>= 1;
                    at++;
                    break;
                case JUMP:
                    at = code[at + 1];
                    break;
                case JUMP_IF_ONE:
                    at = stack[--top] == 1 ? code[at + 1] : at + 2;
                    break;
                case JUMP_IF_EVEN:
                    at = (stack[--top] & 1) == 0 ? code[at + 1] : at + 2;
                    break;
                default:
                    return steps;
            }
        }
    }

    public static void main(String[] arguments) {
        int[] stack = new int[16];
        int[] variables = new int[4];
        int sum = 0;
        for (int number = 1; number <= 16_000; number++) {
            variables[0] = number;
            variables[1] = 0;
            sum = sum * 31 + run(STEPS, stack, variables) + variables[1];
        }
        host.Io.write(sum);
    }
}
