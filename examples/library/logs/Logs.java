import java.io.BufferedReader;
import java.io.IOException;
import java.io.InputStreamReader;
import java.util.*;
import java.util.regex.Matcher;
import java.util.regex.Pattern;

/** Lines of a server's log are taken apart by patterns, counted in maps, and shown as tables. */
public class Logs {
    static final String TIME = "\\[(\\d{2}):(\\d{2}):(\\d{2})\\]", ASKED = "\"(GET|POST|PUT) ([^\" ]*)\"";
    static final Pattern LINE = Pattern.compile("^(\\S+) - (\\w+|-) " + TIME + " " + ASKED + " (\\d{3}) (\\d+|-)$");

    static class Entry {
        final String host, user, method, path;
        final int second, status;
        final long bytes;

        Entry(Matcher it) {
            host = it.group(1);
            user = it.group(2);
            second = Integer.parseInt(it.group(3)) * 3600 + Integer.parseInt(it.group(4)) * 60 + Integer.parseInt(it.group(5));
            method = it.group(6);
            path = it.group(7);
            status = Integer.parseInt(it.group(8));
            bytes = "-".equals(it.group(9)) ? 0 : Long.parseLong(it.group(9));
        }
    }

    static class Counter<K extends Comparable<K>> {
        private final Map<K, Long> counts = new HashMap<>();

        void add(K key, long by) {
            Long before = counts.putIfAbsent(key, by);
            if (before != null) counts.put(key, before + by);
        }

        List<Map.Entry<K, Long>> most() {
            List<Map.Entry<K, Long>> sorted = new ArrayList<>(counts.entrySet());
            Comparator<Map.Entry<K, Long>> byCount = Collections.reverseOrder(Map.Entry.<K, Long>comparingByValue());
            Collections.sort(sorted, byCount.thenComparing(Map.Entry.<K, Long>comparingByKey()));
            return sorted;
        }
    }

    static String decoded(String path) {
        Matcher it = Pattern.compile("%([0-9a-fA-F]{2})").matcher(path);
        StringBuffer made = new StringBuffer();
        while (it.find()) it.appendReplacement(made, Matcher.quoteReplacement("" + (char) Integer.parseInt(it.group(1), 16)));
        return it.appendTail(made).toString();
    }

    static String size(long bytes) {
        String[] units = {"B", "kB", "MB"};
        int unit = 0;
        while (bytes >= 10_000 && unit < units.length - 1) {
            bytes = (bytes + 500) / 1000;
            unit++;
        }
        return bytes + " " + units[unit];
    }

    public static void main(String[] args) throws IOException {
        BufferedReader in = new BufferedReader(new InputStreamReader(System.in));
        Counter<String> hosts = new Counter<>(), paths = new Counter<>(), sections = new Counter<>();
        Counter<Integer> statuses = new Counter<>();
        Set<String> users = new TreeSet<>();
        int read = 0, longest = 0, before = -1;
        for (String line; (line = in.readLine()) != null; ) {
            read++;
            Matcher it = LINE.matcher(line);
            if (!it.matches()) {
                System.out.println("line " + read + " is left out: " + (line.length() > 30 ? line.substring(0, 27) + "..." : line));
                continue;
            }
            Entry entry = new Entry(it);
            hosts.add(entry.host, entry.bytes);
            statuses.add(entry.status, 1);
            String path = decoded(entry.path);
            int query = path.indexOf('?');
            paths.add(query < 0 ? path : path.substring(0, query), 1);
            sections.add(path.split("/").length < 2 ? "" : path.split("/|\\?")[1], 1);
            if (!entry.user.equals("-")) users.add(entry.method + " " + entry.user);
            if (before >= 0) longest = Math.max(longest, entry.second - before);
            before = entry.second;
        }
        System.out.println(read + " lines, a silence of " + longest / 60 + " min " + longest % 60 + " s, " + users);
        for (Map.Entry<String, Long> it : hosts.most()) System.out.println(String.format("  %-16s%10s", it.getKey(), size(it.getValue())));
        for (Map.Entry<Integer, Long> it : statuses.most()) {
            System.out.println(String.format("  %d: %-3d%s", it.getKey(), it.getValue(), it.getKey() / 100 == 5 ? " !" : ""));
        }
        System.out.println(paths.most() + "\n" + sections.most());
        System.out.println("a1b22c333".replaceAll("([a-z])(\\d+)", "$2$1 ") + Arrays.toString("one, two;three  four".split("[,; ]+"))
            + Pattern.matches("(ab|cd)*e?", "abcdabe"));
    }
}
