import java.util.Arrays;
import java.util.LinkedHashSet;
import java.util.Scanner;
import java.util.Set;

/** What beginners do with strings, line by line of the input. */
public class Phrases {
    static boolean isPalindrome(String text) {
        int i = 0, j = text.length() - 1;
        while (i < j) {
            if (!Character.isLetterOrDigit(text.charAt(i))) i++;
            else if (!Character.isLetterOrDigit(text.charAt(j))) j--;
            else if (Character.toLowerCase(text.charAt(i++)) != Character.toLowerCase(text.charAt(j--))) return false;
        }
        return true;
    }

    static int vowels(String text) {
        int count = 0;
        for (char c : text.toLowerCase().toCharArray()) {
            switch (c) {
                case 'a': case 'e': case 'i': case 'o': case 'u':
                    count++;
                    break;
                default:
            }
        }
        return count;
    }

    static String title(String text) {
        StringBuilder made = new StringBuilder();
        boolean isStart = true;
        for (char c : text.toCharArray()) {
            made.append(isStart ? Character.toUpperCase(c) : Character.toLowerCase(c));
            isStart = Character.isWhitespace(c);
        }
        return made.toString();
    }

    static String turned(String text) {
        String[] words = text.trim().split("\\s+");
        String made = "";
        for (int i = words.length - 1; i >= 0; i--) made += words[i] + (i > 0 ? " " : "");
        return made;
    }

    static String once(String text) {
        Set<Character> seen = new LinkedHashSet<>();
        for (char c : text.replace(" ", "").toCharArray()) seen.add(c);
        StringBuilder made = new StringBuilder();
        for (char c : seen) made.append(c);
        return made.toString();
    }

    static char most(String text) {
        int[] counts = new int[128];
        char most = text.charAt(0);
        for (char c : text.toCharArray()) if (c != ' ' && c < 128 && ++counts[c] > counts[most]) most = c;
        return most;
    }

    static String longestPalindrome(String text) {
        String best = "";
        for (int middle = 0; middle < text.length(); middle++) {
            for (int odd = 0; odd < 2; odd++) {
                int from = middle, to = middle + odd;
                while (from >= 0 && to < text.length() && text.charAt(from) == text.charAt(to)) {
                    from--;
                    to++;
                }
                if (to - from - 1 > best.length()) best = text.substring(from + 1, to);
            }
        }
        return best;
    }

    static int longestOfDifferent(String text) {
        int best = 0, from = 0;
        int[] last = new int[256];
        Arrays.fill(last, -1);
        for (int i = 0; i < text.length(); i++) {
            from = Math.max(from, last[text.charAt(i) & 0xFF] + 1);
            last[text.charAt(i) & 0xFF] = i;
            best = Math.max(best, i - from + 1);
        }
        return best;
    }

    static void orders(String prefix, String rest, StringBuilder to) {
        if (rest.isEmpty()) {
            to.append(prefix).append(' ');
            return;
        }
        for (int i = 0; i < rest.length(); i++) {
            if (rest.indexOf(rest.charAt(i)) < i) continue;
            orders(prefix + rest.charAt(i), rest.substring(0, i) + rest.substring(i + 1), to);
        }
    }

    static String centred(String text, int width, char pad) {
        if (text.length() >= width) return text;
        StringBuilder made = new StringBuilder(width);
        while (made.length() < (width - text.length()) / 2) made.append(pad);
        made.append(text);
        while (made.length() < width) made.append(pad);
        return made.toString();
    }

    public static void main(String[] args) {
        Scanner in = new Scanner(System.in);
        int number = 0;
        while (in.hasNextLine()) {
            String line = in.nextLine();
            if (line.trim().length() == 0) continue;
            System.out.println(centred(" " + ++number + " ", 24, '='));
            System.out.println(new StringBuilder(line).reverse());
            System.out.println(title(line) + " / " + turned(line) + " / " + once(line));
            System.out.println(isPalindrome(line) + " " + vowels(line) + " " + most(line) + " '" + longestPalindrome(line) + "' "
                + longestOfDifferent(line));
            System.out.println(line.indexOf("an") + " " + line.lastIndexOf('a') + " " + line.contains("man") + " "
                + line.startsWith("A", 0) + " "
                + line.endsWith("!") + " " + line.compareTo("Madam") + " " + line.equalsIgnoreCase("never odd or even") + " "
                + line.hashCode());
            System.out.println(line.replace('a', '_') + " " + line.replaceAll("[aeiou]+", "*") + " "
                + line.toUpperCase().substring(line.length() / 2));
        }
        StringBuilder made = new StringBuilder();
        orders("", "abca", made);
        System.out.println(made.toString().trim());
        System.out.println(Arrays.toString("a,b,,c,,".split(",")) + Arrays.toString("a,b,,c,,".split(",", -1))
            + Arrays.toString("2024-02-29".split("-")) + Arrays.toString("".split("x")));
        System.out.println("  x y ".trim() + "|" + "abc".concat("def") + "|" + "b".compareTo("abc") + "|" + "apple".compareTo("apply")
            + "|" + "ab".compareTo("abcd")
            + "|" + String.valueOf(new char[] {'o', 'k'}) + "|" + "x".isEmpty() + "|" + "tick\ttack".length() + "|" + "a".equals(null)
            + "|" + (char) ('a' + 1) + ('a' + 1));
        char[] letters = "hello".toCharArray();
        Arrays.sort(letters);
        System.out.println(new String(letters) + new String(letters, 1, 3) + String.copyValueOf(letters, 0, 2)
            + "hello".regionMatches(true, 1, "xELx", 1, 2));
    }
}
