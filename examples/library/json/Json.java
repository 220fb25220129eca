import java.util.ArrayList;
import java.util.LinkedHashMap;
import java.util.List;
import java.util.Map;
import java.util.Scanner;

/** Reads values of JSON, a line each, and writes them with indentation. */
public class Json {
    static final class JsonException extends Exception {
        JsonException(String message) {
            super(message);
        }
    }

    private final String text;
    private int at;

    private Json(String text) {
        this.text = text;
    }

    static Object read(String text) throws JsonException {
        Json json = new Json(text);
        Object value = json.value();
        if (json.next() != '\0') {
            throw json.wrong("more than one value");
        }
        return value;
    }

    private JsonException wrong(String why) {
        return new JsonException(String.format("%s at %d", why, at));
    }

    private char next() {
        while (at < text.length() && text.charAt(at) == ' ') {
            at++;
        }
        return at < text.length() ? text.charAt(at) : '\0';
    }

    private boolean take(char c) {
        boolean there = next() == c;
        if (there) {
            at++;
        }
        return there;
    }

    private void want(char c) throws JsonException {
        if (!take(c)) {
            throw wrong("'" + c + "' is missing");
        }
    }

    private Object value() throws JsonException {
        char c = next();
        if (c == '{') {
            return object();
        }
        if (c == '[') {
            return array();
        }
        if (c == '"') {
            return string();
        }
        int from = at;
        while (at < text.length() && ",]} ".indexOf(text.charAt(at)) < 0) {
            at++;
        }
        String word = text.substring(from, at);
        switch (word) {
            case "true":
                return Boolean.TRUE;
            case "false":
                return Boolean.FALSE;
            case "null":
                return null;
            default:
                try {
                    return Long.valueOf(word);
                } catch (NumberFormatException e) {
                    throw wrong("no value is \"" + word + "\"");
                }
        }
    }

    private Map<String, Object> object() throws JsonException {
        Map<String, Object> members = new LinkedHashMap<>();
        want('{');
        while (!take('}')) {
            if (!members.isEmpty()) {
                want(',');
            }
            String name = string();
            want(':');
            if (members.containsKey(name)) {
                throw wrong("a second " + name);
            }
            members.put(name, value());
        }
        return members;
    }

    private List<Object> array() throws JsonException {
        List<Object> items = new ArrayList<>();
        want('[');
        while (!take(']')) {
            if (!items.isEmpty()) {
                want(',');
            }
            items.add(value());
        }
        return items;
    }

    private String string() throws JsonException {
        want('"');
        StringBuilder out = new StringBuilder();
        while (at < text.length() && text.charAt(at) != '"') {
            char c = text.charAt(at++);
            if (c == '\\' && at < text.length()) {
                c = text.charAt(at++);
                if (c == 'u') {
                    c = (char) Integer.parseInt(text.substring(at, at + 4), 16);
                    at += 4;
                } else if (c == 'n') {
                    c = '\n';
                }
            }
            out.append(c);
        }
        want('"');
        return out.toString();
    }

    static void write(StringBuilder out, Object value, int depth) {
        String line = "\n" + new String(new char[2 * depth]).replace('\0', ' ');
        if (value instanceof Map) {
            String between = "{";
            for (Map.Entry<?, ?> member : ((Map<?, ?>) value).entrySet()) {
                out.append(between).append(line).append("  ").append(member.getKey()).append(": ");
                write(out, member.getValue(), depth + 1);
                between = ",";
            }
            out.append(between.equals("{") ? "{}" : line + "}");
        } else if (value instanceof List) {
            String between = "[";
            for (Object item : (List<?>) value) {
                out.append(between);
                write(out, item, depth + 1);
                between = ", ";
            }
            out.append(between.equals("[") ? "[]" : "]");
        } else if (value instanceof String) {
            out.append('"').append(((String) value).replace("\\", "\\\\").replace("\n", "\\n").replace("\"", "\\\"")).append('"');
        } else {
            out.append(value);
        }
    }

    public static void main(String[] args) {
        Scanner in = new Scanner(System.in);
        while (in.hasNextLine()) {
            StringBuilder out = new StringBuilder();
            try {
                Object value = read(in.nextLine());
                write(out, value, 0);
                System.out.println(out);
                System.out.println(value + (value == null ? "" : " " + value.hashCode()));
            } catch (JsonException e) {
                System.out.println("wrong: " + e.getMessage());
            }
        }
    }
}
