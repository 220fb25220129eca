import java.io.BufferedReader;
import java.io.IOException;
import java.io.InputStreamReader;
import java.util.ArrayList;
import java.util.HashMap;
import java.util.LinkedHashMap;
import java.util.List;
import java.util.Map;

/** A processor of four registers: its programs are read as text, with labels, and run. */
public class Assembler {
    static class SyntaxException extends Exception {
        final int line;

        SyntaxException(int line, String message) {
            super("line " + line + ": " + message);
            this.line = line;
        }
    }

    static final class Instruction {
        final String operation;
        final String[] operands;
        final int line;

        Instruction(String operation, String[] operands, int line) {
            this.operation = operation;
            this.operands = operands;
            this.line = line;
        }

        @Override
        public String toString() {
            return operation + " " + String.join(", ", operands);
        }
    }

    static class Program {
        final List<Instruction> instructions = new ArrayList<>();
        final Map<String, Integer> labels = new LinkedHashMap<>();

        void read(BufferedReader in) throws IOException, SyntaxException {
            String text;
            for (int line = 1; (text = in.readLine()) != null && !text.equals("---"); line++) {
                int comment = text.indexOf(';');
                if (comment >= 0) text = text.substring(0, comment);
                text = text.trim();
                if (text.isEmpty()) continue;
                if (text.endsWith(":")) {
                    String label = text.substring(0, text.length() - 1);
                    if (labels.put(label, instructions.size()) != null) throw new SyntaxException(line, "label " + label + " stands twice");
                    continue;
                }
                String[] parts = text.split("\\s+", 2);
                String[] operands = parts.length == 1 ? new String[0] : parts[1].split("\\s*,\\s*");
                instructions.add(new Instruction(parts[0].toLowerCase(), operands, line));
            }
        }
    }

    static class Processor {
        private final long[] registers = new long[4];
        private final Map<Long, Long> memory = new HashMap<>();
        private final StringBuilder output = new StringBuilder();
        private int steps;

        private int register(Instruction in, int operand) throws SyntaxException {
            String name = operand < in.operands.length ? in.operands[operand] : "";
            if (name.length() == 2 && name.charAt(0) == 'r' && name.charAt(1) >= '0' && name.charAt(1) < '4') return name.charAt(1) - '0';
            throw new SyntaxException(in.line, "'" + name + "' is no register");
        }

        private long value(Instruction in, int operand) throws SyntaxException {
            if (in.operands.length > operand && in.operands[operand].startsWith("r")) return registers[register(in, operand)];
            try {
                return Long.decode(in.operands[operand]);
            } catch (NumberFormatException e) {
                throw new SyntaxException(in.line, e.getMessage());
            }
        }

        private int target(Program program, Instruction in, int operand) throws SyntaxException {
            Integer at = program.labels.get(in.operands[operand]);
            if (at == null) throw new SyntaxException(in.line, "no label " + in.operands[operand]);
            return at;
        }

        String run(Program program) throws SyntaxException {
            int at = 0;
            while (at < program.instructions.size() && steps++ < 5_000) {
                Instruction in = program.instructions.get(at++);
                switch (in.operation) {
                    case "set":
                        registers[register(in, 0)] = value(in, 1);
                        break;
                    case "add":
                        registers[register(in, 0)] += value(in, 1);
                        break;
                    case "sub":
                        registers[register(in, 0)] -= value(in, 1);
                        break;
                    case "mul":
                        registers[register(in, 0)] *= value(in, 1);
                        break;
                    case "div":
                    case "mod":
                        long by = value(in, 1);
                        int to = register(in, 0);
                        registers[to] = in.operation.equals("div") ? registers[to] / by : registers[to] % by;
                        break;
                    case "put":
                        memory.put(value(in, 0), value(in, 1));
                        break;
                    case "get":
                        registers[register(in, 0)] = memory.getOrDefault(value(in, 1), 0L);
                        break;
                    case "jump":
                        at = target(program, in, 0);
                        break;
                    case "ifzero":
                        if (value(in, 0) == 0) at = target(program, in, 1);
                        break;
                    case "ifless":
                        if (value(in, 0) < value(in, 1)) at = target(program, in, 2);
                        break;
                    case "print":
                        output.append(value(in, 0)).append(' ');
                        break;
                    case "halt":
                        return output.toString();
                    default:
                        throw new SyntaxException(in.line, "unknown: " + in);
                }
            }
            return output + (at < program.instructions.size() ? ".. stopped" : "");
        }
    }

    public static void main(String[] args) throws IOException {
        BufferedReader in = new BufferedReader(new InputStreamReader(System.in));
        for (int number = 1; in.ready(); number++) {
            Program program = new Program();
            Processor processor = new Processor();
            try {
                program.read(in);
                System.out.println("program " + number + ": " + program.instructions.size() + " instructions, labels " + program.labels);
                System.out.println("  " + processor.run(program).trim());
                System.out.println("  " + processor.steps + " steps, " + processor.memory.size() + " in memory");
            } catch (SyntaxException e) {
                System.out.println("  " + e.getMessage() + " (" + e.line + ")");
                String rest;
                while (e.getMessage().contains("twice") && (rest = in.readLine()) != null && !rest.equals("---")) continue;
            } catch (ArithmeticException e) {
                System.out.println("  " + e.getMessage());
            }
        }
    }
}
