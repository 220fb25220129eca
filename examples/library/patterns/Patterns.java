import java.util.*;
import java.util.regex.*;

/** A log read by named groups, with templates filled in, and lines found in one text. */
public class Patterns {
    private static final Pattern ENTRY = Pattern.compile(
            "(?<time>\\d{2}:\\d{2}) \\[(?<level>[A-Z]+)\\] (?<text>.*?)(?: \\((?<code>\\d+)\\))?");
    public static void main(String[] args) {
        Scanner in = new Scanner(System.in);
        StringBuilder all = new StringBuilder();
        Map<String, Integer> levels = new TreeMap<>();
        while (in.hasNextLine()) {
            String line = in.nextLine();
            all.append(line).append('\n');
            Matcher m = ENTRY.matcher(line);
            if (!m.matches()) {
                System.out.println("? " + line);
                continue;
            }
            String level = m.group("level");
            Integer n = levels.get(level);
            levels.put(level, n == null ? 1 : n + 1);
            String code = m.group("code");
            System.out.println(m.group("time").replace(':', 'h') + " " + level.charAt(0) + " <" + m.group("text") + "> "
                + (code == null ? "-" : code + "@" + m.start("code")));
        }
        System.out.println(levels);
        Matcher each = Pattern.compile("^(\\d+):(\\d+) \\[E.*$", Pattern.MULTILINE).matcher(all);
        while (each.find()) System.out.println(each.start() + "-" + each.end() + " " + each.group(2));
        String two = "a start\nan end";
        System.out.println(Pattern.compile("start.*end", Pattern.DOTALL).matcher(two).find() + " "
            + Pattern.compile("start.*end").matcher(two).find());
        System.out.println("2024-03-15".replaceAll("(?<y>\\d+)-(?<m>\\d+)-(?<d>\\d+)", "${d}.${m}.${y}"));
        System.out.println("hello bookkeeper".replaceAll("(?<c>[a-z])\\k<c>", "<$1>"));
        Matcher lines = Pattern.compile("^|$", Pattern.MULTILINE).matcher("a\r\nb\n\nc");
        StringBuilder at = new StringBuilder();
        while (lines.find()) at.append(lines.start()).append(' ');
        System.out.println(at);
        try { ENTRY.matcher("").group("nope"); } catch (IllegalStateException e) { System.out.println(e.getMessage()); }
        Matcher m = ENTRY.matcher("10:00 [INFO] x");
        System.out.println(m.matches() + " " + m.end("text"));
        try { m.group("nope"); } catch (IllegalArgumentException e) { System.out.println(e.getMessage()); }
        try { "x".replaceAll("x", "${q}"); } catch (IllegalArgumentException e) { System.out.println(e.getMessage()); }
        try { Pattern.compile("(?<a>x)(?<a>y)"); } catch (PatternSyntaxException e) { System.out.println(e.getDescription()); }
    }
}
