import java.util.*;

/** Methods of String and StringBuilder. */
public class Texts {
    static boolean isPalindrome(String s) {
        StringBuilder sb = new StringBuilder();
        for (char c : s.toCharArray()) {
            if (Character.isLetterOrDigit(c)) sb.append(Character.toLowerCase(c));
        }
        return sb.toString().equals(sb.reverse().toString());
    }

    static String caesar(String s, int k) {
        StringBuilder out = new StringBuilder();
        for (int i = 0; i < s.length(); i++) {
            char c = s.charAt(i);
            if (Character.isUpperCase(c)) out.append((char) ('A' + (c - 'A' + k) % 26));
            else if (Character.isLowerCase(c)) out.append((char) ('a' + (c - 'a' + k) % 26));
            else out.append(c);
        }
        return out.toString();
    }

    static boolean anagram(String a, String b) {
        char[] x = a.toCharArray(), y = b.toCharArray();
        Arrays.sort(x);
        Arrays.sort(y);
        return Arrays.equals(x, y);
    }

    public static void main(String[] args) {
        System.out.println(isPalindrome("A man, a plan, a canal: Panama"));
        System.out.println(caesar("Hello, World!", 3) + " | " + caesar(caesar("Hello, World!", 3), 23));
        System.out.println(anagram("listen", "silent") + " " + anagram("a", "b"));
        String s = "  the quick brown fox  ";
        System.out.println("[" + s.trim() + "]" + s.length() + s.indexOf("quick") + s.lastIndexOf('o') + s.contains("fox"));
        System.out.println(s.trim().toUpperCase().replace(' ', '_').substring(4, 9));
        String[] parts = "a,b,,c,,".split(",");
        System.out.println(parts.length + Arrays.toString(parts));
        System.out.println(String.join("-", Arrays.asList("x", "y", "z")) + String.join("+", "1", "2"));
        System.out.println("apple".compareTo("banana") < 0 ? "less" : "more");
        System.out.println("Hello".charAt(1) + "Hello".indexOf('l') + 'c' + 1 + "x" + 'c' + 1);
        StringBuilder sb = new StringBuilder("0123456789");
        sb.insert(5, "---").deleteCharAt(0).setCharAt(0, '#');
        sb.replace(1, 3, "ab").append(true).append(42L).append('!').append(new char[] {'o', 'k'});
        System.out.println(sb + " " + sb.length() + " " + sb.indexOf("-"));
        System.out.println("Mississippi".replaceAll("ss", "SS").replace("i", "") + "a1b22c333".replaceAll("[0-9]+", "#"));
        int[] freq = new int[26];
        for (char c : "hello world".replaceAll("\\s", "").toCharArray()) freq[c - 'a']++;
        for (int i = 0; i < 26; i++) if (freq[i] > 1) System.out.print((char) ('a' + i) + "=" + freq[i] + " ");
        System.out.println();
        switch ("two") {
            case "one": System.out.println(1); break;
            case "two": System.out.println(2); break;
            default: System.out.println("?");
        }
        System.out.println("abc".equals("ab" + "c") + " " + "Abc".equalsIgnoreCase("aBC") + " " + "abc".startsWith("ab") + " "
            + "abc".endsWith("bc") + " " + "".isEmpty());
        System.out.println(String.valueOf(3 > 2 ? 7 : 8) + Integer.toBinaryString(42) + " " + Integer.toHexString(-1) + " "
            + Long.parseLong("123456789012"));
    }
}
