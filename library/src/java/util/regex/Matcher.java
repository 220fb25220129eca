package java.util.regex;

public final class Matcher implements MatchResult {
    private Pattern pattern;
    private String text;
    /** The part of the text that is looked at. */
    private int from;
    private int to;
    private int[] places;
    private int next;
    /** Where the last match ended. */
    private int last;
    private int appended;
    private boolean hitEnd;

    Matcher(Pattern pattern, String text) {
        this.pattern = pattern;
        this.text = text;
        this.to = text.length();
    }

    private boolean at(int start, boolean whole) {
        return tried(new Pattern.Run(text, from, to, last, whole, noPlaces()), start);
    }

    private int[] noPlaces() {
        int[] found = new int[2 * pattern.groups + 2];
        for (int i = 1; i < found.length; i++) {
            found[i] = -1;
        }
        return found;
    }

    /** What was looked at before a place where nothing matched stays in its groups. */
    private boolean tried(Pattern.Run run, int start) {
        int[] found = run.places;
        found[0] = start;
        places = pattern.match(run, start) ? found : null;
        hitEnd = run.hitEnd;
        if (places != null) {
            last = found[1];
            next = last == start ? start + 1 : last;
        }
        return places != null;
    }

    public boolean matches() {
        return at(from, true);
    }

    public boolean lookingAt() {
        return at(from, false);
    }

    public boolean find() {
        if (next <= to) {
            Pattern.Run run = new Pattern.Run(text, from, to, last, false, noPlaces());
            for (int i = next; i <= to; i++) {
                if (tried(run, i)) {
                    return true;
                }
            }
        }
        next = to + 1;
        hitEnd = true;
        places = null;
        return false;
    }

    public boolean find(int start) {
        if (start < 0 || start > text.length()) {
            throw new IndexOutOfBoundsException("Illegal start index");
        }
        reset();
        next = start;
        last = start;
        return find();
    }

    public Matcher reset() {
        return region(0, text.length());
    }

    public Matcher reset(CharSequence text) {
        this.text = text.toString();
        return reset();
    }

    public Matcher region(int from, int to) {
        if (from < 0 || from > text.length()) {
            throw new IndexOutOfBoundsException("start");
        }
        if (to < 0 || to > text.length()) {
            throw new IndexOutOfBoundsException("end");
        }
        if (from > to) {
            throw new IndexOutOfBoundsException("start > end");
        }
        this.from = from;
        this.to = to;
        next = from;
        last = from;
        appended = 0;
        places = null;
        return this;
    }

    public int regionStart() {
        return from;
    }

    public int regionEnd() {
        return to;
    }

    public Matcher usePattern(Pattern pattern) {
        if (pattern == null) {
            throw new IllegalArgumentException("Pattern cannot be null");
        }
        this.pattern = pattern;
        places = null;
        return this;
    }

    public Pattern pattern() {
        return pattern;
    }

    public boolean hitEnd() {
        return hitEnd;
    }

    // ---- where it matched

    private int place(int group, int end) {
        if (places == null) {
            throw new IllegalStateException("No match available");
        }
        if (group < 0 || group > pattern.groups) {
            throw new IndexOutOfBoundsException("No group " + group);
        }
        return places[2 * group + 1] < 0 ? -1 : places[2 * group + end];
    }

    public int start() {
        return place(0, 0);
    }

    public int start(int group) {
        return place(group, 0);
    }

    public int end() {
        return place(0, 1);
    }

    public int end(int group) {
        return place(group, 1);
    }

    public int groupCount() {
        return pattern.groups;
    }

    public String group() {
        return group(0);
    }

    public String group(int group) {
        if (places == null) {
            throw new IllegalStateException("No match found");
        }
        int from = place(group, 0);
        return from < 0 ? null : text.substring(from, place(group, 1));
    }

    private int named(String name) {
        int group = pattern.groupOf(java.util.Objects.requireNonNull(name, "Group name"));
        if (places == null) {
            throw new IllegalStateException("No match found");
        }
        if (group < 0) {
            throw new IllegalArgumentException("No group with name <" + name + ">");
        }
        return group;
    }

    public String group(String name) {
        return group(named(name));
    }

    public int start(String name) {
        return start(named(name));
    }

    public int end(String name) {
        return end(named(name));
    }

    public MatchResult toMatchResult() {
        Matcher copy = new Matcher(pattern, text);
        copy.places = places;
        return copy;
    }

    // ---- replacing

    public static String quoteReplacement(String text) {
        return text.replace("\\", "\\\\").replace("$", "\\$");
    }

    private void appendTo(StringBuilder out, String by) {
        out.append(text, appended, start());
        appended = end();
        for (int i = 0; i < by.length(); i++) {
            char c = by.charAt(i);
            if (c == '\\') {
                i++;
                if (i == by.length()) {
                    throw new IllegalArgumentException("character to be escaped is missing");
                }
                out.append(by.charAt(i));
            } else if (c == '$') {
                i++;
                int group;
                if (i < by.length() && by.charAt(i) == '{') {
                    int close = by.indexOf('}', i);
                    if (close < 0) {
                        throw new IllegalArgumentException("named capturing group is missing trailing '}'");
                    }
                    String name = by.substring(i + 1, close);
                    group = pattern.groupOf(name);
                    if (group < 0) {
                        throw new IllegalArgumentException("No group with name {" + name + "}");
                    }
                    i = close;
                } else if (i == by.length() || !Character.isDigit(by.charAt(i))) {
                    throw new IllegalArgumentException("Illegal group reference");
                } else {
                    group = by.charAt(i) - '0';
                    while (i + 1 < by.length() && Character.isDigit(by.charAt(i + 1))
                            && 10 * group + by.charAt(i + 1) - '0' <= pattern.groups) {
                        i++;
                        group = 10 * group + by.charAt(i) - '0';
                    }
                }
                String found = group(group);
                out.append(found == null ? "" : found);
            } else {
                out.append(c);
            }
        }
    }

    public Matcher appendReplacement(StringBuffer out, String by) {
        StringBuilder more = new StringBuilder();
        appendTo(more, by);
        out.append(more);
        return this;
    }

    public StringBuffer appendTail(StringBuffer out) {
        return out.append(text, appended, text.length());
    }

    private String replaced(String by, boolean all) {
        reset();
        StringBuilder out = new StringBuilder();
        boolean found = find();
        if (!found) {
            return text;
        }
        while (found) {
            appendTo(out, by);
            found = all && find();
        }
        return out.append(text, appended, text.length()).toString();
    }

    public String replaceAll(String by) {
        return replaced(by, true);
    }

    public String replaceFirst(String by) {
        return replaced(by, false);
    }
}
