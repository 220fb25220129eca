import java.util.*;

/** Texts that are searched: patterns with stars, words by the way of Knuth, Morris and Pratt, a machine of states, patterns as objects. */
public class Wildcards {
    /** Whether a text has the form of a pattern with `*` and `?`. */
    static boolean fits(String pattern, String text) {
        boolean[][] fits = new boolean[pattern.length() + 1][text.length() + 1];
        fits[0][0] = true;
        for (int i = 1; i <= pattern.length(); i++) {
            char c = pattern.charAt(i - 1);
            for (int j = 0; j <= text.length(); j++) {
                if (c == '*') fits[i][j] = fits[i - 1][j] || j > 0 && fits[i][j - 1];
                else fits[i][j] = j > 0 && fits[i - 1][j - 1] && (c == '?' || c == text.charAt(j - 1));
            }
        }
        return fits[pattern.length()][text.length()];
    }

    static List<Integer> places(String word, String text) {
        int[] borders = new int[word.length()];
        for (int i = 1, k = 0; i < word.length(); i++) {
            while (k > 0 && word.charAt(i) != word.charAt(k)) k = borders[k - 1];
            if (word.charAt(i) == word.charAt(k)) k++;
            borders[i] = k;
        }
        List<Integer> found = new ArrayList<>();
        for (int i = 0, k = 0; i < text.length(); i++) {
            while (k > 0 && (k == word.length() || text.charAt(i) != word.charAt(k))) k = borders[k - 1];
            if (text.charAt(i) == word.charAt(k)) k++;
            if (k == word.length()) found.add(i - k + 1);
        }
        return found;
    }

    /** What a machine of states makes of a text: which parts are words, numbers, marks. */
    static final int OUTSIDE = 0, WORD = 1, NUMBER = 2;

    static List<String> parts(String text) {
        List<String> found = new ArrayList<>();
        StringBuilder part = new StringBuilder();
        int state = OUTSIDE;
        for (char c : (text + "\n").toCharArray()) {
            int next = Character.isLetter(c) || c == '_' ? WORD : Character.isDigit(c) ? state == WORD ? WORD : NUMBER : OUTSIDE;
            if (state != OUTSIDE && next != state) {
                found.add((state == WORD ? "word " : "number ") + part);
                part.delete(0, part.length());
            }
            if (next != OUTSIDE) part.append(c);
            else if (!Character.isWhitespace(c)) found.add("mark " + c);
            state = next;
        }
        return found;
    }

    /** A pattern of a small language, which says how much of a text it takes. */
    static abstract class Pattern {
        abstract Set<Integer> ends(String text, int from);

        boolean takes(String text) {
            return ends(text, 0).contains(text.length());
        }
    }

    static Pattern letter(final char c) {
        return new Pattern() {
            @Override
            Set<Integer> ends(String text, int from) {
                return from < text.length() && text.charAt(from) == c ? Collections.singleton(from + 1) : Collections.<Integer>emptySet();
            }
        };
    }

    static Pattern both(final Pattern... parts) {
        return new Pattern() {
            @Override
            Set<Integer> ends(String text, int from) {
                Set<Integer> ends = new TreeSet<>(Arrays.asList(from));
                for (Pattern part : parts) {
                    Set<Integer> next = new TreeSet<>();
                    for (int end : ends) next.addAll(part.ends(text, end));
                    ends = next;
                }
                return ends;
            }
        };
    }

    static Pattern either(final Pattern a, final Pattern b) {
        return new Pattern() {
            @Override
            Set<Integer> ends(String text, int from) {
                Set<Integer> ends = new TreeSet<>(a.ends(text, from));
                ends.addAll(b.ends(text, from));
                return ends;
            }
        };
    }

    static Pattern many(final Pattern part) {
        return new Pattern() {
            @Override
            Set<Integer> ends(String text, int from) {
                NavigableSet<Integer> ends = new TreeSet<>();
                Deque<Integer> waiting = new ArrayDeque<>();
                waiting.add(from);
                while (!waiting.isEmpty()) {
                    int end = waiting.poll();
                    if (ends.add(end)) waiting.addAll(part.ends(text, end));
                }
                return ends.descendingSet();
            }
        };
    }

    public static void main(String[] args) {
        String[][] rows = {{"*.java", "Main.java"}, {"*.java", "Main.class"}, {"?a*b?", "cabbage be"}, {"*a*a*", "banana"}, {"", ""},
            {"*", ""}, {"a?c", "ac"}};
        for (String[] row : rows) {
            System.out.println("'" + row[0] + "' " + (fits(row[0], row[1]) ? "takes" : "leaves") + " '" + row[1] + "'");
        }
        System.out.println(places("abab", "abababcabab") + " " + places("aa", "aaaa") + " " + places("x", "abc"));
        System.out.println(parts("x1 = 42*(total_2 - 7up);"));
        Pattern ab = both(letter('a'), many(either(letter('b'), both(letter('c'), letter('d')))), letter('e'));
        for (String text : new String[] {"ae", "abbe", "acde", "acdbcde", "ace", "abcd", "abe!"}) {
            System.out.print(text + " " + ab.takes(text) + ", ");
        }
        System.out.println(many(letter('z')).ends("zzzy", 0));
    }
}
