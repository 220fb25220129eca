import java.io.*;
import java.util.*;

/** Cells with numbers and formulas, worked out when they are asked for; a circle of cells is told by its names. */
public class Spreadsheet {
    static class Circle extends RuntimeException {
        Circle(Collection<String> way) {
            super(String.join(" -> ", way));
        }
    }

    static class ByPlace implements Comparator<String> {
        @Override
        public int compare(String a, String b) {
            int rows = Integer.compare(row(a), row(b));
            return rows != 0 ? rows : Character.compare(a.charAt(0), b.charAt(0));
        }
    }

    private final SortedMap<String, String> cells = new TreeMap<>(new ByPlace());
    private final Map<String, Long> known = new HashMap<>();
    private final Set<String> open = new LinkedHashSet<>();

    static int row(String cell) {
        return Integer.parseInt(cell.substring(1));
    }

    long value(String cell) {
        Long value = known.get(cell);
        if (value != null) return value;
        if (!open.add(cell)) {
            List<String> way = new ArrayList<>(open);
            way.subList(0, way.indexOf(cell)).clear();
            way.add(cell);
            throw new Circle(way);
        }
        try {
            String text = cells.containsKey(cell) ? cells.get(cell) : "0";
            long result = text.charAt(0) == '=' ? formula(text.substring(1)) : Long.parseLong(text);
            known.put(cell, result);
            return result;
        } finally {
            open.remove(cell);
        }
    }

    private long formula(String text) {
        if (text.matches("(SUM|MAX|MIN)\\([A-Z]\\d+:[A-Z]\\d+\\)")) {
            String[] ends = text.substring(4, text.length() - 1).split(":");
            return over(text.substring(0, 3), ends[0], ends[1]);
        }
        long sum = 0;
        for (String term : text.split("(?=[+-])")) {
            boolean negative = term.startsWith("-");
            long product = negative ? -1 : 1;
            for (String factor : term.replaceFirst("^[+-]", "").split("\\*")) {
                product *= Character.isLetter(factor.charAt(0)) ? value(factor) : Long.parseLong(factor);
            }
            sum = Math.addExact(sum, product);
        }
        return sum;
    }

    private long over(String name, String from, String to) {
        List<Long> values = new ArrayList<>();
        for (char column = from.charAt(0); column <= to.charAt(0); column++) {
            for (int row = row(from); row <= row(to); row++) values.add(value("" + column + row));
        }
        switch (name) {
            case "MAX":
                return Collections.max(values);
            case "MIN":
                return Collections.min(values);
            default:
                long sum = 0;
                for (long v : values) sum += v;
                return sum;
        }
    }

    String shown(String cell) {
        if (!cells.containsKey(cell)) return ".";
        try {
            return String.valueOf(value(cell));
        } catch (Circle e) {
            return "#circle";
        } catch (NumberFormatException e) {
            return "#number";
        } catch (ArithmeticException e) {
            return "#large";
        }
    }

    public static void main(String[] args) throws IOException {
        Spreadsheet sheet = new Spreadsheet();
        BufferedReader in = new BufferedReader(new InputStreamReader(System.in));
        for (String line; (line = in.readLine()) != null; ) {
            int colon = line.indexOf(':');
            if (colon > 0) sheet.cells.put(line.substring(0, colon).trim(), line.substring(colon + 1).trim());
        }
        System.out.printf("%4c%9c%9c%n", 'A', 'B', 'C');
        for (int row = 1; row <= row(sheet.cells.lastKey()); row++) {
            StringBuilder line = new StringBuilder().append(row);
            for (char column = 'A'; column <= 'C'; column++) line.append(String.format(" %8s", sheet.shown("" + column + row)));
            System.out.println(line);
        }
        System.out.println(sheet.cells.headMap("A3").keySet() + " " + sheet.cells.tailMap("B5").size() + sheet.open);
        try {
            System.out.println(sheet.value("B4"));
        } catch (Circle e) {
            System.out.println(e.getMessage());
        }
        sheet.value("C3");
    }
}
