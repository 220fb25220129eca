import java.util.*;

/** A reader of settings: sections, values of several kinds, names that are set in. */
public class Settings {
    static class BadSettings extends RuntimeException {
        BadSettings(String message, Throwable cause) { super(message, cause); }
        BadSettings(String message) { super(message); }
    }

    private final Map<String, Map<String, String>> sections = new LinkedHashMap<>();

    static Settings read(Scanner in) {
        Settings settings = new Settings();
        String section = "";
        int number = 0;
        while (in.hasNextLine()) {
            String line = in.nextLine().trim();
            number++;
            if (line.isEmpty() || line.charAt(0) == '#') continue;
            if (line.startsWith("[") && line.endsWith("]")) {
                section = line.substring(1, line.length() - 1).trim();
                continue;
            }
            int at = line.indexOf('=');
            if (at < 0) {
                System.out.println("line " + number + " is passed over: " + line);
                continue;
            }
            Map<String, String> of = settings.sections.get(section);
            if (of == null) {
                of = new LinkedHashMap<>();
                settings.sections.put(section, of);
            }
            String name = line.substring(0, at).trim(), value = line.substring(at + 1).trim();
            String old = of.put(name, value);
            if (old != null) System.out.println("line " + number + ": " + name + " was " + old);
        }
        return settings;
    }

    String text(String section, String name) {
        return text(section, name, 0);
    }

    private String text(String section, String name, int depth) {
        Map<String, String> of = sections.get(section);
        if (of == null) throw new BadSettings("no section " + section);
        if (!of.containsKey(name)) throw new BadSettings("no " + name + " in " + section);
        return filled(of.get(name), depth);
    }

    private String filled(String value, int depth) {
        if (depth > 5) throw new BadSettings("too deep: " + value);
        int from = value.indexOf("${"), to = value.indexOf('}', from);
        if (from < 0 || to < 0) return value;
        String[] name = value.substring(from + 2, to).split("\\.");
        String inner = name.length == 2 ? text(name[0], name[1], depth + 1) : text("", name[0], depth + 1);
        return filled(new StringBuilder(value).replace(from, to + 1, inner).toString(), depth + 1);
    }

    int number(String section, String name) {
        String value = text(section, name);
        try {
            return Integer.parseInt(value);
        } catch (NumberFormatException e) {
            throw new BadSettings(name + " is no number", e);
        }
    }

    boolean flag(String section, String name) {
        switch (text(section, name).toLowerCase(Locale.ROOT)) {
            case "yes": case "on": case "true": case "1":
                return true;
            case "no": case "off": case "false": case "0":
                return false;
            default:
                throw new BadSettings(name + " is neither yes nor no");
        }
    }

    List<String> list(String section, String name) {
        List<String> found = new ArrayList<>();
        StringTokenizer words = new StringTokenizer(text(section, name), ",; ");
        while (words.hasMoreTokens()) found.add(words.nextToken());
        return found;
    }

    public static void main(String[] args) {
        Settings settings = read(new Scanner(System.in));
        for (Map.Entry<String, Map<String, String>> section : settings.sections.entrySet()) {
            System.out.println("[" + section.getKey() + "] " + section.getValue());
        }
        System.out.println(settings.text("paths", "logs") + " " + settings.number("server", "port") + " "
            + settings.flag("server", "Secure"));
        System.out.println(settings.list("server", "hosts") + " " + settings.list("server", "hosts").size());
        String[][] wrong = {{"server", "limit"}, {"client", "x"}, {"server", "nothing"}, {"loop", "a"}};
        for (String[] it : wrong) {
            try {
                System.out.println(settings.number(it[0], it[1]));
            } catch (BadSettings e) {
                Throwable cause = e.getCause();
                System.out.println(e.getMessage() + (cause == null ? "" : ", since " + cause.getMessage() + " "
                    + (cause instanceof IllegalArgumentException)));
            }
        }
        try {
            settings.flag("server", "port");
        } catch (BadSettings e) {
            System.out.println(e.getLocalizedMessage());
        }
    }
}
