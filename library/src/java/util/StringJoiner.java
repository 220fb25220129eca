package java.util;

public final class StringJoiner {
    private final String between;
    private final String prefix;
    private final String suffix;
    private StringBuilder text;
    private String empty;

    public StringJoiner(CharSequence between) {
        this(between, "", "");
    }

    public StringJoiner(CharSequence between, CharSequence prefix, CharSequence suffix) {
        this.between = between.toString();
        this.prefix = prefix.toString();
        this.suffix = suffix.toString();
    }

    public StringJoiner add(CharSequence part) {
        if (text == null) {
            text = new StringBuilder();
            text.append(prefix);
        } else {
            text.append(between);
        }
        text.append(part);
        return this;
    }

    public int length() {
        return toString().length();
    }

    public String toString() {
        return text != null ? text.toString() + suffix : empty != null ? empty : prefix + suffix;
    }

    public StringJoiner setEmptyValue(CharSequence text) {
        empty = text.toString();
        return this;
    }

    public StringJoiner merge(StringJoiner other) {
        return other.text == null ? this : add(other.text.substring(other.prefix.length()));
    }
}
