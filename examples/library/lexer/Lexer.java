import java.util.*;
import java.util.regex.*;

/** A tokenizer by one pattern that moves along its text, and texts that are taken apart by what stands before and behind a place. */
public class Lexer {
    private static final Pattern TOKEN = Pattern.compile("(?x) \\s* (?: (?<number> \\d+ ) | (?<name> [\\p{L}_&&[^\\d]] \\w* )"
        + " | (?<text> \" (?: [^\"\\\\] | \\\\. )* \" ) | (?<sign> [-+*/=<>!]=? | [(){};] ) ) # what is left is wrong");

    static List<String> tokens(String source) {
        List<String> found = new ArrayList<>();
        Matcher m = TOKEN.matcher(source);
        int at = 0;
        while (at < source.length()) {
            m.region(at, source.length());
            if (!m.lookingAt()) {
                found.add("? at " + at + " of " + m.regionEnd());
                break;
            }
            for (String kind : new String[] {"number", "name", "text", "sign"}) {
                if (m.group(kind) != null) {
                    found.add(kind.charAt(0) + ":" + m.group(kind));
                }
            }
            at = m.end();
        }
        return found;
    }

    static void split(String text, String by) {
        System.out.println(by + " " + Arrays.asList(text.split(by)));
    }

    static void all(Pattern pattern, String text) {
        StringBuilder out = new StringBuilder(pattern.pattern()).append(':');
        Matcher m = pattern.matcher(text);
        while (m.find()) {
            out.append(' ').append(m.start()).append('-').append(m.end());
        }
        System.out.println(out.append(m.hitEnd() ? " to the end" : ""));
    }

    public static void main(String[] args) {
        System.out.println(tokens("while (x1 <= 40) { say(\"a \\\"b\\\"\"); x1 = x1*2; }"));
        System.out.println(tokens("\u00e4_1 != 7 $ 8"));
        split("parseHTMLFile", "(?<=[a-z])(?=[A-Z])|(?<=[A-Z])(?=[A-Z][a-z])");
        split("1234567890", "(?<=\\G...)");
        split("3+42*(7-x)", "(?<=[^\\w])|(?=[^\\w])");
        split("one\r\ntwo\nthree\u2028four", "\\R");
        split("a1b22c333", "(?<!\\d)(?=\\d)|(?<=\\d)(?!\\d)");
        all(Pattern.compile("(?i)cat(?-i)S"), "catS CATS CatS cats");
        all(Pattern.compile("(?i:b)b"), "bb Bb bB");
        all(Pattern.compile("[a-z&&[^aeiou]]{2,}"), "strength of a lens");
        all(Pattern.compile("[a-c[x-z]]+"), "abxyq cz");
        all(Pattern.compile("[^\\p{Punct}\\s]+"), "well, (it) is so!");
        all(Pattern.compile("\\x41\\u0042\\0103"), "ABC abc");
        all(Pattern.compile("1+1=2", Pattern.LITERAL), "1+1=2 and 11=2");
        all(Pattern.compile("\u00e9t\u00e9", Pattern.CASE_INSENSITIVE | Pattern.UNICODE_CASE), "\u00c9T\u00c9 \u00e9T\u00e9");
        all(Pattern.compile("(a)(b)(c)(d)(e)(f)(g)(h)(i)(j)\\10\\1"), "abcdefghijja");
        all(Pattern.compile("^\\w+$", Pattern.MULTILINE), "one\ntwo\nthree four\nfive");
        System.out.println("price: $5, $12 and 7".replaceAll("(?<=\\$)\\d+", "<$0>"));
        System.out.println("a.b*c".replaceAll(Pattern.quote(".b*"), Matcher.quoteReplacement("$")));
        for (String wrong : new String[] {"(?<=(ab)+)c", "[z-a]", "(?q)", "\\p{Nope}", "a{2", "(?<n>a", "x**"}) {
            try {
                Pattern.compile(wrong);
                System.out.println(wrong);
            } catch (PatternSyntaxException e) {
                System.out.println(e.getDescription() + " at " + e.getIndex() + " of " + e.getPattern());
            }
        }
    }
}
