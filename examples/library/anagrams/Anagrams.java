import java.util.*;
import java.util.function.BiFunction;
import java.util.function.Function;

/** Words that have the same letters, by a map of lists that is filled in several ways. */
public class Anagrams {
    static String key(String word) {
        char[] letters = word.toLowerCase().toCharArray();
        Arrays.sort(letters);
        return new String(letters);
    }

    static class BySize implements Comparator<List<String>> {
        @Override
        public int compare(List<String> a, List<String> b) {
            return a.size() != b.size() ? b.size() - a.size() : a.get(0).compareTo(b.get(0));
        }
    }

    public static void main(String[] args) {
        Map<String, List<String>> groups = new TreeMap<>();
        Map<Character, Integer> letters = new TreeMap<>(Collections.reverseOrder());
        Map<Integer, Integer> lengths = new HashMap<>();
        Scanner in = new Scanner(System.in);
        Function<String, List<String>> fresh = new Function<String, List<String>>() {
            @Override
            public List<String> apply(String key) {
                return new ArrayList<>();
            }
        };
        BiFunction<Integer, Integer, Integer> plus = new BiFunction<Integer, Integer, Integer>() {
            @Override
            public Integer apply(Integer a, Integer b) {
                return a + b;
            }
        };
        while (in.hasNext()) {
            String word = in.next().replaceAll("[^A-Za-z]", "");
            if (word.isEmpty()) continue;
            groups.computeIfAbsent(key(word), fresh).add(word);
            lengths.merge(word.length(), 1, plus);
            for (int i = 0; i < word.length(); i++) {
                char c = Character.toUpperCase(word.charAt(i));
                letters.put(c, letters.containsKey(c) ? letters.get(c) + 1 : 1);
            }
        }
        List<List<String>> sorted = new ArrayList<>(groups.values());
        Collections.sort(sorted, new BySize());
        for (List<String> group : sorted) {
            if (group.size() < 2) break;
            Collections.sort(group);
            System.out.println(group.size() + " " + group + " " + key(group.get(0)));
        }
        System.out.println(groups.size() + " groups, lengths " + lengths);
        StringBuilder bars = new StringBuilder();
        Iterator<Map.Entry<Character, Integer>> it = letters.entrySet().iterator();
        while (it.hasNext()) {
            Map.Entry<Character, Integer> e = it.next();
            if (e.getValue() < 5) {
                it.remove();
                continue;
            }
            bars.append(e.getKey()).append(' ');
            for (int i = 0; i < e.getValue(); i++) bars.append('#');
            bars.append('\n');
        }
        System.out.print(bars);
        System.out.println(letters.keySet() + " " + ((TreeMap<Character, Integer>) letters).firstKey());
        groups.keySet().retainAll(Arrays.asList(key("stale"), key("part"), "none"));
        System.out.println(groups);
        groups.replaceAll(new BiFunction<String, List<String>, List<String>>() {
            @Override
            public List<String> apply(String k, List<String> words) {
                return words.subList(0, 1);
            }
        });
        System.out.println(groups + " " + groups.containsValue(Collections.singletonList("least")));
    }
}
