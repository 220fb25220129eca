import java.util.*;

/** Fields of a CSV file with quotes, and a report by groups. */
public class Rows {
    static List<String> fields(String line) {
        List<String> out = new ArrayList<>();
        StringBuilder cur = new StringBuilder();
        boolean quoted = false;
        for (int i = 0; i < line.length(); i++) {
            char c = line.charAt(i);
            if (quoted) {
                if (c != '"') cur.append(c);
                else if (i + 1 < line.length() && line.charAt(i + 1) == '"') { cur.append('"'); i++; }
                else quoted = false;
            } else if (c == '"' && cur.length() == 0) quoted = true;
            else if (c == ',') { out.add(cur.toString()); cur.setLength(0); }
            else cur.append(c);
        }
        if (quoted) throw new IllegalArgumentException("unclosed quote: " + line);
        out.add(cur.toString());
        return Collections.unmodifiableList(out);
    }
    public static void main(String[] args) {
        Scanner in = new Scanner(System.in);
        List<String> head = fields(in.nextLine());
        SortedMap<String, List<Map<String, String>>> groups = new TreeMap<>();
        int line = 1;
        while (in.hasNextLine()) {
            line++;
            String text = in.nextLine();
            if (text.trim().isEmpty()) continue;
            try {
                List<String> f = fields(text);
                if (f.size() != head.size()) throw new IllegalArgumentException(f.size() + " fields, not " + head.size());
                Map<String, String> row = new LinkedHashMap<>();
                for (int i = 0; i < f.size(); i++) row.put(head.get(i), f.get(i).trim());
                String key = row.get("city");
                if (!groups.containsKey(key)) groups.put(key, new ArrayList<Map<String, String>>());
                groups.get(key).add(row);
            } catch (IllegalArgumentException e) {
                System.out.println("line " + line + ": " + e.getMessage());
            }
        }
        SortedMap<String, List<Map<String, String>>> view = Collections.unmodifiableSortedMap(groups);
        System.out.println(view.firstKey() + " to " + view.lastKey() + ", " + view.headMap("M").keySet());
        for (Map.Entry<String, List<Map<String, String>>> e : view.entrySet()) {
            int sum = 0;
            for (Map<String, String> row : e.getValue()) sum += Integer.parseInt(row.get("amount"));
            System.out.printf("%-10s %2d %6d %s%n", e.getKey(), e.getValue().size(), sum, e.getValue().get(0));
        }
        try { view.clear(); } catch (UnsupportedOperationException e) { System.out.println("only to be read"); }
        try { head.add("x"); } catch (UnsupportedOperationException e) { System.out.println("nor the head"); }
    }
}
