import java.util.Arrays;
import java.util.Scanner;
import java.util.StringJoiner;
import java.util.StringTokenizer;

/** String, StringBuilder, StringBuffer, StringTokenizer, StringJoiner and formats. */
public class Texts {
    private static final String LETTERS = "aabBc ,.1-";

    static Object ofString(Draws d, int which) {
        String s = d.text(LETTERS, 9);
        String t = d.text(LETTERS, 3);
        int i = d.below(12) - 1;
        int j = d.below(12) - 1;
        char c = LETTERS.charAt(d.below(LETTERS.length()));
        switch (which) {
            case 0: return s.length() + " " + s.isEmpty() + " " + s.hashCode();
            case 1: return s.charAt(i);
            case 2: return s.substring(i);
            case 3: return s.substring(i, j);
            case 4: return s.indexOf(c) + " " + s.indexOf(c, i) + " " + s.lastIndexOf(c) + " " + s.lastIndexOf(c, i);
            case 5: return s.indexOf(t) + " " + s.indexOf(t, i) + " " + s.lastIndexOf(t) + " " + s.lastIndexOf(t, i);
            case 6: return s.compareTo(t) + " " + s.compareToIgnoreCase(t) + " " + s.equalsIgnoreCase(t) + " " + s.equals(t);
            case 7: return s.startsWith(t) + " " + s.startsWith(t, i) + " " + s.endsWith(t) + " " + s.contains(t);
            case 8: return s.concat(t) + "|" + s.trim() + "|" + s.toUpperCase() + "|" + s.toLowerCase();
            case 9: return s.replace(c, 'x') + "|" + s.replace(t, "<>") + "|" + s.replace("", "-");
            case 10: return Arrays.toString(s.split(",")) + Arrays.toString(s.split("a", i)) + Arrays.toString(s.split("\\."));
            case 11: return Arrays.toString(s.split("[ ,]+")) + Arrays.toString(s.split("", j)) + Arrays.toString(s.split("ab|,", j));
            case 12: return s.replaceAll("[ab]", "<$0>") + "|" + s.replaceFirst("(.)\\1", "[$1]") + "|" + s.matches("[aAbB ]*");
            case 13: return new String(s.toCharArray()) + String.valueOf(s.toCharArray(), 0, Math.min(2, s.length())) + s.intern();
            case 14: return new String(s.toCharArray(), i, j);
            case 15: return s.regionMatches(i, t, 0, 2) + " " + s.regionMatches(true, i, t, 0, 1) + " "
                + s.contentEquals(new StringBuilder(s));
            case 16: return String.join(t, s, "x", t) + "|" + String.join("", Arrays.asList(s, t)) + "|" + String.valueOf((Object) null);
            case 17: return Arrays.toString(s.getBytes()) + new String(s.getBytes()) + new String(s.getBytes(), 0, s.length());
            case 18: return s.codePointAt(i) + " " + s.codePointCount(0, s.length());
            case 19: return s.subSequence(i, j).toString();
            case 20: {
                char[] to = new char[5];
                s.getChars(i, j, to, 1);
                return new String(to).replace('\0', '_');
            }
            case 21: return s.codePointBefore(i);
            case 22: return String.copyValueOf(s.toCharArray(), i, j);
            case 23: return s.compareTo(null);
            case 24: return s.contains(null);
            default: return new String(s) == s ? "same" : new String(s).equals(s);
        }
    }

    static Object ofBuilder(Draws d, StringBuilder b, int which) {
        String s = d.text(LETTERS, 4);
        int i = d.below(14) - 1;
        int j = d.below(14) - 1;
        switch (which) {
            case 0: return b.append(s).append(i).append(true).append('c').append((Object) null).append(-5L).append((String) null);
            case 1: return b.append(s, 0, Math.min(i < 0 ? 0 : i, s.length())).append(s.toCharArray());
            case 2: return b.insert(i, s);
            case 3: return b.insert(i, j).insert(0, 'q').insert(0, false).insert(0, 7L).insert(0, (Object) null);
            case 4: return b.delete(i, j);
            case 5: return b.deleteCharAt(i);
            case 6: return b.replace(i, j, s);
            case 7: return b.reverse();
            case 8: return b.charAt(i);
            case 9: b.setCharAt(i, 'Z'); return b;
            case 10: return b.indexOf(s) + " " + b.lastIndexOf(s) + " " + b.indexOf(s, i) + " " + b.lastIndexOf(s, j);
            case 11: return b.substring(i);
            case 12: return b.substring(i, j) + b.subSequence(i, j);
            case 13: b.setLength(i); return b.toString().replace('\0', '_');
            case 14: return b.length() + " " + new StringBuilder(b).append(b.length()) + new StringBuilder(s)
                + new StringBuffer(b).reverse();
            case 15: return b.append(s.toCharArray(), i, j);
            case 16: return b.insert(i, s.toCharArray());
            case 17: return b.appendCodePoint(0x1f600).append("\u00e4");
            case 18: return b.codePointAt(i);
            default: return b.append(new StringBuffer(s)).append(new StringBuilder(s));
        }
    }

    static String format(Draws d) {
        String flags = d.text("-+0 ,(#", 2);
        String width = d.coin() ? "" : String.valueOf(1 + d.below(12));
        String precision = d.below(4) == 0 ? "." + d.below(4) : "";
        return "[%" + flags + width + precision + "dxXosScCbBhHn%qd".charAt(d.below(16)) + "]";
    }

    static Object ofFormat(Draws d) {
        switch (d.below(4)) {
            case 0: {
                String f = "[%" + new String[] {"", "-", "0", "+", ",", "(", " ", "+0", ",0"}[d.below(9)] + (4 + d.below(12)) + "d]";
                return f + String.format(f, d.coin() ? (Object) d.anInt() : (Object) d.aLong());
            }
            case 1: {
                String f = "[%" + new String[] {"", "0", "-", "#", "#0"}[d.below(5)] + (8 + d.below(12)) + "xXo".charAt(d.below(3)) + "]";
                return f + String.format(f, d.coin() ? (Object) d.anInt() : d.coin() ? (Object) (short) d.anInt() : (Object) d.aLong());
            }
            case 2: {
                String f = "[%" + (d.coin() ? "-" : "") + (1 + d.below(9)) + (d.coin() ? "" : "." + d.below(4))
                    + "sSbBhH".charAt(d.below(6)) + "]";
                Object[] some = {"text", null, true, 42, 'c', Arrays.asList(1, 2)};
                return f + String.format(f, some[d.below(some.length)]);
            }
            default:
                return String.format("%2$s %1$s %s %<s %s%n%% %c %C", d.text(LETTERS, 3), d.below(9), 'x', 'y');
        }
    }

    static Object wrongFormat(Draws d) {
        String[] some = {"%d", "%s %s", "%q", "%", "%c", "%x", "%-d", "%5", "%b %d", "%,d"};
        Object[] values = {"text", 3, 'c', null, true};
        return String.format(some[d.below(some.length)], values[d.below(values.length)]);
    }

    static Object ofOthers(Draws d) {
        String s = d.text(LETTERS, 12);
        StringTokenizer t = new StringTokenizer(s, " ,", d.coin());
        StringBuilder all = new StringBuilder().append(t.countTokens());
        while (t.hasMoreTokens()) {
            all.append('<').append(t.nextToken()).append('>');
        }
        StringJoiner j = new StringJoiner(d.text(LETTERS, 2), "{", "}");
        if (d.coin()) {
            j.setEmptyValue("none");
        }
        for (int k = d.below(3); k > 0; k--) {
            j.add(d.text(LETTERS, 2));
        }
        return all + " " + j + " " + j.length() + new StringJoiner("-").merge(j).add("end");
    }

    public static void main(String[] args) {
        run();
    }

    static void run() {
        Draws d = new Draws(new Scanner(System.in).nextLong());
        for (int k = 0; k < 600; k++) {
            int which = d.below(26);
            String answer;
            try {
                answer = String.valueOf(ofString(d, which));
            } catch (RuntimeException e) {
                answer = Draws.told(e);
            }
            System.out.println("string " + which + ": " + answer);
        }
        StringBuilder b = new StringBuilder("begin");
        for (int k = 0; k < 400; k++) {
            int which = d.below(20);
            String answer;
            try {
                answer = String.valueOf(ofBuilder(d, b, which));
            } catch (RuntimeException e) {
                answer = Draws.told(e);
            }
            System.out.println("builder " + which + ": " + answer);
            if (b.length() > 40) {
                b.setLength(6);
            }
        }
        for (int k = 0; k < 200; k++) {
            String answer;
            try {
                answer = String.valueOf(k % 4 == 0 ? wrongFormat(d) : k % 4 == 1 ? ofOthers(d) : ofFormat(d));
            } catch (RuntimeException e) {
                answer = Draws.told(e);
            }
            System.out.println("format: " + answer);
        }
    }
}
