import java.util.Arrays;
import java.util.NoSuchElementException;
import java.util.Scanner;
import java.util.regex.Matcher;
import java.util.regex.Pattern;
import java.util.regex.PatternSyntaxException;

/** Patterns that are put together at random, on random texts; formats; and a Scanner that seeks. */
final class Patterns {
    private static final String LETTERS = "aabbcAB1 2_-.,\n";
    private static final String[] ITEMS = {"a", "b", "ab", "[ab]", "[^a]", "[a-c&&[^b]]", "[^a-b[1-2]]", "[\\w&&[^\\d]]", "\\d", "\\w", "\\s", "\\D",
        "\\W", "\\S", ".", "\\b", "\\B", "^", "$", "\\G", "\\Z", "\\z", "\\R", "\\p{Upper}", "\\P{Alpha}", "\\p{Punct}", "\\x41", "\\u0062", "\\.",
        "\\Qa.\\E", "\\h", "[-a]", "[\\]b]", "\\1", "(?i)", "(?-i)", "(?s)"};
    private static final String[] COUNTS = {"*", "+", "?", "{2}", "{1,2}", "{0,}", "*?", "+?", "??", "++", "?+", "{1,2}?"};
    private static final String[] FRONTS = {"(", "(?:", "(?=", "(?!", "(?<=", "(?<!", "(?>", "(?i:", "(?<n>"};

    private static void part(Draws d, StringBuilder out, int depth, boolean within) {
        for (int k = 1 + d.below(3); k > 0; k--) {
            int which = d.below(10);
            if (which < 3 && depth > 0) {
                String front = within ? "(?:" : FRONTS[d.below(out.indexOf("<n>") < 0 ? FRONTS.length : FRONTS.length - 1)];
                boolean isWithin = within || !front.equals("(") && !front.equals("(?:") && !front.equals("(?<n>");
                boolean again = !isWithin && d.below(3) == 0;
                // What is repeated isn't empty here: whether such a group is left is not told either.
                out.append(front).append(again ? "\\w" : "");
                part(d, out, depth - 1, isWithin);
                if (d.below(3) == 0) {
                    out.append(again ? "|a" : "|");
                    part(d, out, depth - 1, isWithin);
                }
                out.append(')');
                if (again) {
                    out.append(COUNTS[d.below(COUNTS.length)]);
                }
            } else {
                // What stands within has a length here, and no groups: which ones are left when it fails is not told.
                int item = d.below(within ? 9 : ITEMS.length);
                out.append(ITEMS[item]);
                if (!within && item < 16 && d.below(3) == 0) {
                    out.append(COUNTS[d.below(COUNTS.length)]);
                }
            }
        }
    }

    private static String ofPattern(Draws d) {
        StringBuilder pattern = new StringBuilder();
        part(d, pattern, 3, false);
        String text = d.text(LETTERS, 12);
        StringBuilder all = new StringBuilder(pattern).append(" on ").append(text.replace('\n', '/')).append(':');
        Pattern p;
        try {
            p = Pattern.compile(pattern.toString(), new int[] {0, Pattern.CASE_INSENSITIVE, Pattern.MULTILINE, Pattern.DOTALL}[d.below(4)]);
        } catch (PatternSyntaxException e) {
            return all.append(" wrong ").append(e.getDescription()).toString();
        }
        Matcher m = p.matcher(text);
        int from = d.below(text.length() + 1);
        if (d.below(4) == 0) {
            m.region(from, from + d.below(text.length() - from + 1));
        }
        while (m.find()) {
            all.append(' ').append(m.start()).append('-').append(m.end());
            for (int g = 1; g <= m.groupCount(); g++) {
                all.append(',').append(m.start(g)).append('-').append(m.end(g));
            }
        }
        return all.append(' ').append(p.matcher(text).matches()).append(p.matcher(text).lookingAt())
            .append(Arrays.toString(p.split(text, d.below(4) - 1)).replace('\n', '/')).append(p.matcher(text).replaceAll("<$0>").replace('\n', '/'))
            .toString();
    }

    private static String ofFormat(Draws d) {
        StringBuilder format = new StringBuilder();
        for (int k = 1 + d.below(3); k > 0; k--) {
            format.append(d.text("-x", 1)).append('%').append(d.below(4) == 0 ? 1 + d.below(3) + "$" : "");
            format.append(d.text("#0,(", 1)).append(d.text("-+", 1)).append(d.coin() ? "" + (1 + d.below(9)) : "").append(d.below(5) == 0 ? "." + d.below(4) : "");
            format.append("dxXosScbhH%dsd".charAt(d.below(14)));
        }
        Object[] values = new Object[3];
        for (int i = 0; i < 3; i++) {
            // No int, as `c` may have it.
            values[i] = new Object[] {d.aLong(), d.aLong(), "text", 'c', null, true, (short) d.below(1000), java.math.BigInteger.valueOf(d.aLong())}[d.below(8)];
        }
        String all = format + " of " + Arrays.toString(values) + ": ";
        try {
            return all + String.format(format.toString(), values);
        } catch (IllegalArgumentException e) {
            return all + Draws.told(e);
        }
    }

    private static String sought(Draws d) {
        String text = d.text("ab1 2,\n", 20);
        Scanner in = new Scanner(text);
        StringBuilder all = new StringBuilder(text.replace('\n', '/')).append(':');
        for (int k = 0; k < 6; k++) {
            String pattern = new String[] {"[ab]+", "\\d", "\\s*", "a", ",", "(\\w)(\\w)"}[d.below(6)];
            int radix = 2 + d.below(35);
            all.append(' ');
            try {
                switch (d.below(10)) {
                    case 0:
                        all.append(in.findInLine(pattern));
                        break;
                    case 1:
                        all.append(in.findWithinHorizon(pattern, d.below(5)));
                        break;
                    case 2:
                        in.skip(pattern);
                        break;
                    case 3:
                        all.append(in.hasNextInt(radix)).append(in.hasNextLong(radix));
                        break;
                    case 4:
                        all.append(in.nextLong(radix));
                        break;
                    case 5:
                        all.append(in.useRadix(radix).nextInt());
                        break;
                    case 6:
                        all.append(in.hasNext(pattern));
                        break;
                    case 7:
                        all.append(in.next(pattern)).append(in.match().group());
                        break;
                    case 8:
                        all.append(in.nextLine());
                        break;
                    default:
                        all.append(in.next());
                }
            } catch (NoSuchElementException e) {
                all.append(e);
            }
        }
        return all.toString().replace('\n', '/');
    }

    public static void main(String[] args) {
        Draws d = new Draws(new Scanner(System.in).nextLong());
        for (int k = 0; k < 900; k++) {
            System.out.println(k % 3 == 0 ? ofFormat(d) : k % 3 == 1 ? sought(d) : ofPattern(d));
        }
    }
}
