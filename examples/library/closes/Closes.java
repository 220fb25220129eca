import java.io.*;
import java.util.*;

/** Streams that are closed, and what is read and written behind that. */
public class Closes {
    interface Act {
        Object run() throws Exception;
    }

    static class Full extends OutputStream {
        private int room = 3;

        @Override
        public void write(int b) throws IOException {
            if (room-- == 0) throw new IOException("full");
        }
    }

    static void tell(String what, Act act) {
        try {
            System.out.println(what + ": " + act.run());
        } catch (Exception e) {
            System.out.println(what + ": " + e);
        }
    }

    static String firstLine() throws IOException {
        try (BufferedReader in = new BufferedReader(new InputStreamReader(System.in))) {
            return in.readLine();
        }
    }

    public static void main(String[] args) {
        final StringWriter text = new StringWriter();
        final BufferedWriter writer = new BufferedWriter(text);
        final BufferedReader reader = new BufferedReader(new StringReader("one\ntwo"));
        tell("write", new Act() {
            public Object run() throws IOException {
                writer.write("kept");
                writer.close();
                writer.close();
                writer.write("lost");
                return text;
            }
        });
        System.out.println(text);
        tell("read", new Act() {
            public Object run() throws IOException {
                System.out.println(reader.readLine());
                reader.close();
                return reader.readLine();
            }
        });
        tell("ready", new Act() { public Object run() throws IOException { return reader.ready(); } });
        tell("full", new Act() {
            public Object run() {
                PrintStream out = new PrintStream(new Full());
                out.print("abc");
                boolean before = out.checkError();
                out.println("defg");
                return before + " " + out.checkError();
            }
        });
        tell("first line", new Act() { public Object run() throws IOException { return firstLine(); } });
        tell("again", new Act() { public Object run() throws IOException { return firstLine(); } });
        tell("scanner", new Act() { public Object run() { return new Scanner(System.in).nextLine(); } });
        tell("closed scanner", new Act() {
            public Object run() {
                Scanner words = new Scanner("a b");
                String first = words.next();
                words.close();
                return first + words.hasNext();
            }
        });
        PrintWriter last = new PrintWriter(System.out);
        last.println("the last line");
        last.close();
        System.out.println("nobody sees this");
        throw new IllegalStateException(last.checkError() ? "an error" : "none");
    }
}
