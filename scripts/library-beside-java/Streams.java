import java.io.BufferedReader;
import java.io.BufferedWriter;
import java.io.ByteArrayInputStream;
import java.io.ByteArrayOutputStream;
import java.io.IOException;
import java.io.InputStreamReader;
import java.io.OutputStreamWriter;
import java.io.PrintStream;
import java.io.PrintWriter;
import java.io.StringReader;
import java.io.StringWriter;
import java.util.Scanner;
import java.util.regex.Matcher;
import java.util.regex.Pattern;
import java.util.regex.PatternSyntaxException;

/** Scanner, readers and writers, and regular expressions. */
public class Streams {
    private static final String INPUT = "12 a-7 \n\n\r\n,99\t2147483648 true TRUE x";

    static Object ofScanner(Draws d, Scanner s, int which) {
        switch (which) {
            case 0: return s.hasNext();
            case 1: return s.next();
            case 2: return s.hasNextInt() + " " + s.hasNextLong() + " " + s.hasNextBoolean() + " " + s.hasNextLine();
            case 3: return s.nextInt();
            case 4: return s.nextLong();
            case 5: case 6: return "<" + s.nextLine() + ">";
            case 7: return s.nextBoolean();
            case 8: return s.hasNextShort() + " " + s.hasNextByte() + " " + s.hasNextBigInteger();
            case 9: return s.nextBigInteger();
            case 10: return s.hasNext("[a-z]+");
            case 11: return s.nextInt(16);
            default: return s.nextShort();
        }
    }

    static String scanned(Draws d) {
        StringBuilder all = new StringBuilder();
        Scanner s = new Scanner(d.coin() ? d.text(INPUT, 40) : "1,234 -12 +5 0012 1,23 12,345,678 -1,000 " + d.text(INPUT, 12));
        if (d.below(4) == 0) {
            s.useDelimiter(d.coin() ? "," : "\\s*[,a]\\s*");
        }
        for (int k = 0; k < 9; k++) {
            int which = d.below(13);
            String answer;
            try {
                answer = String.valueOf(ofScanner(d, s, which));
            } catch (RuntimeException e) {
                answer = Draws.told(e);
            }
            all.append(which).append('=').append(answer).append("; ");
        }
        s.close();
        try {
            all.append(s.hasNext());
        } catch (IllegalStateException e) {
            all.append(e.getMessage());
        }
        return all.toString().replace("\n", "\\n").replace("\r", "\\r");
    }

    static String streamed(Draws d) throws IOException {
        String text = d.text("ab\u00e4\u20ac\n\r c1", 30);
        StringBuilder all = new StringBuilder();
        ByteArrayOutputStream bytes = new ByteArrayOutputStream();
        BufferedWriter out = new BufferedWriter(new OutputStreamWriter(bytes, "UTF-8"));
        out.write(text);
        out.newLine();
        out.write(text.toCharArray(), 0, text.length() / 2);
        out.append('x').append("yz").write("abcdef", 2, 3);
        out.close();
        BufferedReader in = new BufferedReader(new InputStreamReader(new ByteArrayInputStream(bytes.toByteArray()), "UTF-8"));
        all.append(bytes.size()).append(' ').append((char) in.read());
        char[] some = new char[4];
        all.append(in.read(some, 1, 2)).append((int) some[1]);
        for (String line = in.readLine(); line != null; line = in.readLine()) {
            all.append('<').append(line).append('>');
        }
        all.append(in.read());
        in.close();
        try {
            out.append('z').flush();
        } catch (IOException e) {
            all.append(e.getMessage());
        }
        try {
            all.append(in.ready()).append(in.readLine());
        } catch (IOException e) {
            all.append(e.getMessage());
        }
        StringWriter w = new StringWriter();
        PrintWriter p = new PrintWriter(w, true);
        p.printf("%d-%s", d.below(99), text);
        p.print(true);
        p.print('c');
        p.print(-5L);
        p.print(new char[] {'h', 'i'});
        p.print((Object) null);
        p.println((String) null);
        p.write("w");
        p.append("a").flush();
        PrintStream s = new PrintStream(bytes);
        s.print(text);
        s.println(7);
        s.write(65);
        s.flush();
        s.close();
        s.println(text);
        p.close();
        p.print(8);
        all.append(s.checkError()).append(p.checkError());
        all.append(w).append(w.getBuffer().length()).append(bytes.size()).append(bytes.toString("UTF-8").length());
        StringReader r = new StringReader(text);
        BufferedReader b = new BufferedReader(r);
        all.append(b.readLine()).append(b.read()).append(b.ready());
        return all.toString().replace("\n", "\\n").replace("\r", "\\r");
    }

    private static final String[] PIECES = {"a", "b", "[ab]", "[^a]", ".", "\\d", "\\w", "\\s", "(a|b)", "(ab)", "(?:ba)", "^", "$", "\\b",
        "1", "(a*)", "(b+)?", "(?=a)", "(?!b)", "\\1"};
    private static final String[] REPEATS = {"", "", "", "*", "+", "?", "*?", "+?", "{2}", "{1,2}", "{0,3}?", "++"};

    static String matched(Draws d) {
        StringBuilder pattern = new StringBuilder();
        for (int k = 1 + d.below(4); k > 0; k--) {
            String piece = PIECES[d.below(PIECES.length)];
            boolean once = piece.endsWith(")?") || piece.length() == 1 && "^$".contains(piece) || piece.equals("\\b")
                || piece.startsWith("(?=") || piece.startsWith("(?!");
            pattern.append(piece).append(once ? "" : REPEATS[d.below(REPEATS.length)]).append(d.below(6) == 0 ? "|" : "");
        }
        String text = d.text("aabb1 ", 10);
        StringBuilder all = new StringBuilder(pattern).append(" on ").append(text).append(": ");
        Pattern p;
        try {
            p = Pattern.compile(pattern.toString());
        } catch (PatternSyntaxException e) {
            return all + "no pattern";
        }
        Matcher m = p.matcher(text);
        all.append(m.matches()).append(' ');
        m.reset();
        while (m.find()) {
            all.append(m.start()).append('-').append(m.end());
            for (int g = 1; g <= m.groupCount(); g++) {
                all.append('(').append(m.group(g)).append(')');
            }
            all.append(' ');
        }
        return all + text.replaceAll(pattern.toString(), "<$0>") + " " + text.split(pattern.toString()).length + " "
            + p.matcher(text).lookingAt();
    }

    public static void main(String[] args) throws IOException {
        Draws d = new Draws(new Scanner(System.in).nextLong());
        for (int k = 0; k < 120; k++) {
            System.out.println(scanned(d));
        }
        for (int k = 0; k < 30; k++) {
            System.out.println(streamed(d));
        }
        for (int k = 0; k < 300; k++) {
            System.out.println(matched(d));
        }
    }
}
