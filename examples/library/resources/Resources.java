import java.io.Closeable;
import java.io.IOException;
import java.io.StringReader;
import java.io.StringWriter;
import java.util.ArrayList;
import java.util.List;

/** In which order things are opened and closed: try with resources, finally, causes, and exceptions on the way. */
public class Resources {
    static final List<String> EVENTS = new ArrayList<>();

    static class Resource implements Closeable {
        private final String name;
        private final boolean breaks;

        Resource(String name, boolean breaks) {
            this.name = name;
            this.breaks = breaks;
            EVENTS.add("open " + name);
        }

        @Override
        public void close() throws IOException {
            EVENTS.add("close " + name);
            if (breaks) {
                throw new IOException("can't close " + name);
            }
        }
    }

    static int use(int how) throws IOException {
        try (Resource a = new Resource("a", how == 2); Resource b = new Resource("b", how >= 2)) {
            if (how == 1 || how == 3) {
                throw new IllegalStateException("use " + how);
            }
            return how;
        } finally {
            EVENTS.add("finally");
        }
    }

    static int depth(int n) {
        return 1 + depth(n + 1);
    }

    public static void main(String[] args) throws IOException {
        for (int how = 0; how < 4; how++) {
            EVENTS.clear();
            try {
                EVENTS.add("gave " + use(how));
            } catch (IllegalStateException | IOException e) {
                EVENTS.add(e.getMessage());
                for (Throwable t : e.getSuppressed()) {
                    EVENTS.add("suppressed: " + t.getMessage());
                }
            }
            System.out.println(EVENTS);
        }
        try {
            depth(0);
        } catch (StackOverflowError e) {
            System.out.println("too deep, and goes on");
        }
        StringReader in = new StringReader("first\nsecond");
        StringWriter out = new StringWriter();
        for (int c = in.read(); c >= 0; c = in.read()) {
            out.write(Character.toUpperCase(c));
        }
        System.out.println(out);
        Object text = "text";
        try {
            System.out.println(((Integer) text).intValue());
        } catch (ClassCastException e) {
            System.out.println("no Integer");
        }
        Throwable outer = new RuntimeException("outer", new IllegalArgumentException(new NullPointerException("inner")));
        for (Throwable t = outer; t != null; t = t.getCause()) {
            System.out.println(t);
        }
        throw new UnsupportedOperationException("the end");
    }
}
