import java.io.*;
import java.util.*;

/** A table with quotes in it is read, grouped, summed up and printed, with amounts in cents. */
public class Ledger {
    static List<String> fields(String line) {
        List<String> found = new ArrayList<>();
        StringBuilder field = new StringBuilder();
        boolean quoted = false;
        for (int i = 0; i < line.length(); i++) {
            char c = line.charAt(i);
            if (quoted) {
                if (c != '"') field.append(c);
                else if (i + 1 < line.length() && line.charAt(i + 1) == '"') field.append(line.charAt(++i));
                else quoted = false;
            } else if (c == '"') {
                quoted = true;
            } else if (c == ',') {
                found.add(field.toString());
                field.setLength(0);
            } else {
                field.append(c);
            }
        }
        found.add(field.toString());
        return found;
    }

    static long cents(String amount) {
        String text = amount.trim();
        boolean isBelow = text.startsWith("-");
        if (isBelow) text = text.substring(1);
        int point = text.indexOf('.');
        String whole = point < 0 ? text : text.substring(0, point);
        String part = point < 0 ? "00" : (text.substring(point + 1) + "00").substring(0, 2);
        long found = Long.parseLong(whole) * 100 + Integer.parseInt(part);
        return isBelow ? -found : found;
    }

    static String shown(long cents) {
        String digits = String.valueOf(Math.abs(cents) / 100);
        StringBuilder text = new StringBuilder(digits);
        for (int at = digits.length() - 3; at > 0; at -= 3) text.insert(at, '\'');
        text.append('.').append(Math.abs(cents) % 100 < 10 ? "0" : "").append(Math.abs(cents) % 100);
        return cents < 0 ? text.insert(0, '-').toString() : text.toString();
    }

    static class Total implements Comparable<Total> {
        final String name;
        long sum;
        int count;
        long largest = Long.MIN_VALUE;

        Total(String name) { this.name = name; }

        void add(long amount) {
            sum += amount;
            count++;
            if (amount > largest) largest = amount;
        }

        @Override
        public int compareTo(Total other) {
            int order = Long.compare(other.sum, sum);
            return order != 0 ? order : name.compareTo(other.name);
        }
    }

    public static void main(String[] args) throws IOException {
        BufferedReader reader = new BufferedReader(new InputStreamReader(System.in));
        List<String> head = fields(reader.readLine());
        int group = head.indexOf("category"), amount = head.indexOf("amount"), text = head.indexOf("text");
        System.out.println(head + " " + group + " " + amount);
        Map<String, Total> totals = new HashMap<>();
        List<String> wrong = new LinkedList<>();
        int number = 1;
        for (String line = reader.readLine(); line != null; line = reader.readLine()) {
            number++;
            List<String> row = fields(line);
            try {
                String name = row.get(group);
                Total total = totals.get(name);
                if (total == null) totals.put(name, total = new Total(name));
                total.add(cents(row.get(amount)));
                if (row.get(text).contains("\"")) System.out.println("quoted: " + row.get(text));
            } catch (NumberFormatException | IndexOutOfBoundsException e) {
                wrong.add(number + ": " + e.getMessage());
            }
        }
        List<Total> sorted = new ArrayList<>(totals.values());
        Collections.sort(sorted);
        System.out.println(String.format("%-12s %5s %14s %12s", "category", "count", "sum", "largest"));
        long all = 0;
        for (Total it : sorted) {
            System.out.println(String.format("%-12s %5d %14s %12s", it.name, it.count, shown(it.sum), it.count == 0 ? "-"
                : shown(it.largest)));
            all += it.sum;
        }
        System.out.println(String.format("%-12s %5s %14s", "all", "", shown(all)));
        for (String it : wrong) System.out.println("line " + it);
    }
}
