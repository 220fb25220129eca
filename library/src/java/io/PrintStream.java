package java.io;

/** Prints values. What goes wrong below is only told by checkError. */
public class PrintStream extends OutputStream implements Appendable {
    private OutputStreamWriter to;
    private OutputStream out;
    private boolean direct;
    private boolean failed;

    public PrintStream(OutputStream out) {
        this.out = out;
        this.direct = out instanceof HostOutput;
        this.to = out == null ? null : new OutputStreamWriter(out);
    }

    public PrintStream(OutputStream out, boolean flush) {
        this(out);
    }

    public PrintStream(OutputStream out, boolean flush, String charset) throws UnsupportedEncodingException {
        this(out);
        Encodings.named(charset);
    }

    private void put(int c) {
        if (direct && c < 0x80 && !to.isWithin()) {
            host.Io.write(c);
        } else if (to != null) {
            try {
                to.write(c);
            } catch (IOException e) {
                failed = true;
            }
        }
    }

    private void put(String text) {
        int n = text.length();
        for (int i = 0; i < n; i++) {
            put(text.charAt(i));
        }
    }

    private void put(long l) {
        if (l < 0) {
            put('-');
        }
        long rest = l < 0 ? l : -l;
        long power = -1;
        while (rest / 10 <= power) {
            power *= 10;
        }
        while (power != 0) {
            put((int) ('0' + rest / power));
            rest %= power;
            power /= 10;
        }
    }

    public void write(int b) {
        if (out != null) {
            try {
                out.write(b);
            } catch (IOException e) {
                failed = true;
            }
        }
    }

    public void write(byte[] bytes, int at, int count) {
        for (int i = 0; i < count; i++) {
            write(bytes[at + i]);
        }
    }

    public void flush() {
        if (out != null) {
            try {
                out.flush();
            } catch (IOException e) {
                failed = true;
            }
        }
    }

    public void close() {
        if (out != null) {
            try {
                out.close();
            } catch (IOException e) {
                failed = true;
            }
            out = new Closed();
            to = new OutputStreamWriter(out);
            direct = false;
        }
    }

    public boolean checkError() {
        return failed;
    }

    public void print(String text) {
        put(String.valueOf((Object) text));
    }

    public void print(Object o) {
        put(String.valueOf(o));
    }

    public void print(char[] chars) {
        for (char c : chars) {
            put(c);
        }
    }

    public void print(char c) {
        put(c);
    }

    public void print(int i) {
        put((long) i);
    }

    public void print(long l) {
        put(l);
    }

    public void print(boolean b) {
        put(b ? "true" : "false");
    }

    public void println() {
        put('\n');
    }

    public void println(String text) {
        print(text);
        put('\n');
    }

    public void println(Object o) {
        print(o);
        put('\n');
    }

    public void println(char[] chars) {
        print(chars);
        put('\n');
    }

    public void println(char c) {
        put(c);
        put('\n');
    }

    public void println(int i) {
        put((long) i);
        put('\n');
    }

    public void println(long l) {
        put(l);
        put('\n');
    }

    public void println(boolean b) {
        print(b);
        put('\n');
    }

    public PrintStream printf(String format, Object... values) {
        StringBuilder text = new StringBuilder();
        try {
            java.util.Formats.format(text, format, values);
        } finally {
            put(text.toString());
        }
        return this;
    }

    public PrintStream format(String format, Object... values) {
        return printf(format, values);
    }

    public PrintStream append(char c) {
        put(c);
        return this;
    }

    public PrintStream append(CharSequence text) {
        put(String.valueOf(text));
        return this;
    }

    public PrintStream append(CharSequence text, int from, int to) {
        return append(String.valueOf(text).subSequence(from, to));
    }

    public PrintStream printf(java.util.Locale locale, String format, Object... values) {
        return printf(format, values);
    }

    public PrintStream format(java.util.Locale locale, String format, Object... values) {
        return printf(format, values);
    }
}
