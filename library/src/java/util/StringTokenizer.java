package java.util;

public class StringTokenizer implements Enumeration<Object> {
    private final String text;
    private String between;
    private final boolean all;
    private char greatest;
    private int at;

    public StringTokenizer(String text) {
        this(text, " \t\n\r\f", false);
    }

    public StringTokenizer(String text, String between) {
        this(text, between, false);
    }

    public StringTokenizer(String text, String between, boolean all) {
        this.text = text;
        this.all = all;
        set(between);
    }

    private void set(String between) {
        this.between = between;
        char most = '\0';
        for (int i = 0; i < between.length(); i++) {
            if (between.charAt(i) > most) {
                most = between.charAt(i);
            }
        }
        this.greatest = most;
    }

    private boolean isBetween(int i) {
        char c = text.charAt(i);
        return c <= greatest && between.indexOf(c) >= 0;
    }

    private int begin(int from) {
        int i = from;
        while (!all && i < text.length() && isBetween(i)) {
            i++;
        }
        return i;
    }

    private int end(int from) {
        int i = from;
        while (i < text.length() && !isBetween(i)) {
            i++;
        }
        return all && i == from && i < text.length() ? i + 1 : i;
    }

    public boolean hasMoreTokens() {
        return begin(at) < text.length();
    }

    public String nextToken() {
        int from = begin(at);
        if (from >= text.length()) {
            throw new NoSuchElementException();
        }
        at = end(from);
        return text.substring(from, at);
    }

    public int countTokens() {
        int n = 0;
        for (int i = begin(at); i < text.length(); i = begin(end(i))) {
            n++;
        }
        return n;
    }

    public boolean hasMoreElements() {
        return hasMoreTokens();
    }

    public Object nextElement() {
        return nextToken();
    }

    public String nextToken(String between) {
        set(between);
        return nextToken();
    }
}
