package java.io;

/** Prints values. What goes wrong below is only told by checkError. */
public class PrintWriter extends CharWriter {
    private Writer to;
    private boolean failed;

    public PrintWriter(OutputStream out) {
        this.to = new OutputStreamWriter(out);
    }

    public PrintWriter(OutputStream out, boolean flush) {
        this(out);
    }

    public PrintWriter(Writer out) {
        this.to = out;
    }

    public PrintWriter(Writer out, boolean flush) {
        this.to = out;
    }

    private void put(int c) {
        if (to != null) {
            try {
                to.write(c);
            } catch (IOException e) {
                failed = true;
            }
        }
    }

    private void put(String text) {
        int n = text.length();
        for (int i = 0; i < n; i++) {
            put(text.charAt(i));
        }
    }

    private void put(long l) {
        if (l < 0) {
            put('-');
        }
        long rest = l < 0 ? l : -l;
        long power = -1;
        while (rest / 10 <= power) {
            power *= 10;
        }
        while (power != 0) {
            put((int) ('0' + rest / power));
            rest %= power;
            power /= 10;
        }
    }

    public void write(int c) {
        put(c);
    }

    public void write(String text) {
        put(text);
    }

    public void flush() {
        try {
            to.flush();
        } catch (IOException e) {
            failed = true;
        }
    }

    public void close() {
        try {
            to.close();
        } catch (IOException e) {
            failed = true;
        }
        to = new OutputStreamWriter(new Closed());
    }

    public boolean checkError() {
        return failed;
    }

    public void print(String text) {
        put(String.valueOf((Object) text));
    }

    public void print(Object o) {
        put(String.valueOf(o));
    }

    public void print(char[] chars) {
        for (char c : chars) {
            put(c);
        }
    }

    public void print(char c) {
        put(c);
    }

    public void print(int i) {
        put((long) i);
    }

    public void print(long l) {
        put(l);
    }

    public void print(boolean b) {
        put(b ? "true" : "false");
    }

    public void println() {
        put('\n');
    }

    public void println(String text) {
        print(text);
        put('\n');
    }

    public void println(Object o) {
        print(o);
        put('\n');
    }

    public void println(char[] chars) {
        print(chars);
        put('\n');
    }

    public void println(char c) {
        put(c);
        put('\n');
    }

    public void println(int i) {
        put((long) i);
        put('\n');
    }

    public void println(long l) {
        put(l);
        put('\n');
    }

    public void println(boolean b) {
        print(b);
        put('\n');
    }

    public PrintWriter printf(String format, Object... values) {
        StringBuilder text = new StringBuilder();
        try {
            java.util.Formats.format(text, format, values);
        } finally {
            put(text.toString());
        }
        return this;
    }

    public PrintWriter format(String format, Object... values) {
        return printf(format, values);
    }

    public PrintWriter append(char c) {
        put(c);
        return this;
    }

    public PrintWriter append(CharSequence text) {
        put(String.valueOf(text));
        return this;
    }

    public PrintWriter append(CharSequence text, int from, int to) {
        return append(String.valueOf(text).subSequence(from, to));
    }

    public PrintWriter printf(java.util.Locale locale, String format, Object... values) {
        return printf(format, values);
    }

    public PrintWriter format(java.util.Locale locale, String format, Object... values) {
        return printf(format, values);
    }
}
