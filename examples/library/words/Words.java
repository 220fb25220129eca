import java.util.*;

/** Counts words, the most frequent first. */
public class Words {
    public static void main(String[] args) {
        Scanner sc = new Scanner(System.in);
        Map<String, Integer> count = new HashMap<>();
        while (sc.hasNextLine()) {
            String line = sc.nextLine().toLowerCase();
            for (String w : line.split("[^a-z]+")) {
                if (w.isEmpty()) continue;
                count.put(w, count.getOrDefault(w, 0) + 1);
            }
        }
        List<Map.Entry<String, Integer>> list = new ArrayList<>(count.entrySet());
        Collections.sort(list, new Comparator<Map.Entry<String, Integer>>() {
            @Override
            public int compare(Map.Entry<String, Integer> a, Map.Entry<String, Integer> b) {
                int c = b.getValue().compareTo(a.getValue());
                return c != 0 ? c : a.getKey().compareTo(b.getKey());
            }
        });
        for (Map.Entry<String, Integer> e : list) {
            System.out.println(e.getKey() + ": " + e.getValue());
        }
        System.out.println(count.size() + " words, map " + count.containsKey("the"));
        System.out.println(count);
    }
}
