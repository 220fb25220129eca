import java.util.HashMap;
import java.util.Map;
import java.util.TreeMap;
import java.util.regex.Matcher;
import java.util.regex.Pattern;
import java.util.regex.PatternSyntaxException;

/** Letters from templates, and what regular expressions find. */
public class Templates {
    private static final Pattern NAME = Pattern.compile("\\$\\{(\\w+)(?::([^}]*))?\\}");

    static String filled(String template, Map<String, ?> values) {
        Matcher m = NAME.matcher(template);
        StringBuffer out = new StringBuffer();
        while (m.find()) {
            Object value = values.get(m.group(1));
            String format = m.group(2) == null ? "%s" : m.group(2);
            m.appendReplacement(out, Matcher.quoteReplacement(String.format(format, value)));
        }
        return m.appendTail(out).toString();
    }

    public static void main(String[] args) {
        Map<String, Object> values = new HashMap<>();
        values.put("name", "Ann");
        values.put("sum", 1234567);
        values.put("code", 0xbeef);
        values.put("paid", false);
        System.out.println(filled("Dear ${name:%-6s}| you owe ${sum:%,d} (code ${code:%08X}, paid: ${paid:%b}), ${nobody}.", values));
        System.out.println(filled("${sum:%+d} ${sum:%015d} ${name:%10.2s} ${code:%o} ${code:%#x} ${name:%S} ${sum:% d} ${sum:%(d}",
            values));

        String log = "10:15 ann login\n10:17 bob login\n10:20 ann logout\n11:02 eve login failed\n";
        Matcher m = Pattern.compile("(\\d+):(\\d+) ([a-z]+) (login|logout)(?! failed)").matcher(log);
        Map<String, Integer> minutes = new TreeMap<>();
        while (m.find()) {
            int minute = 60 * Integer.parseInt(m.group(1)) + Integer.parseInt(m.group(2));
            minutes.put(m.group(3), m.group(4).equals("login") ? minute : minute - minutes.get(m.group(3)));
        }
        System.out.println(minutes + " " + m.groupCount());
        System.out.println("2026-11-29".replaceAll("(\\d+)-(\\d+)-(\\d+)", "$3.$2.$1") + " " + "a1b22c".replaceFirst("\\d+", "#"));
        System.out.println("one,two;three  four".split("[,;\\s]+").length + " " + "boo:and:foo".split("o", -1).length
            + " " + String.join("|", "boo:and:foo".split("o")) + " " + String.join("|", "abc".split("")));
        System.out.println("aaa".matches("a{2,3}") + " " + "abab".matches("(ab)*") + " " + "abba".matches("(.)(.)\\2\\1")
            + " " + "Hello".matches("(?:h|H)ell[^a-m]") + " " + Pattern.matches("[\\w.]+@[\\w.]+\\.\\w+", "a.b@c.de"));
        System.out.println("<a><b>".replaceAll("<.+?>", "x") + " " + "<a><b>".replaceAll("<.+>", "x") + " "
            + "x1y2".replaceAll("[^\\d]", ""));
        try {
            Pattern.compile("a(b");
        } catch (PatternSyntaxException e) {
            System.out.println(e.getDescription());
        }
    }
}
