import java.nio.charset.StandardCharsets;
import java.util.*;

/** Texts that are hidden and shown again: letters that are moved and swapped, runs, bytes as digits and letters, sums that check. */
public class Ciphers {
    interface Cipher {
        String hide(String text);

        String show(String hidden);

        default boolean keeps(String text) {
            return show(hide(text)).equals(text);
        }
    }

    static class Caesar implements Cipher {
        private final int by;

        Caesar(int by) { this.by = (by % 26 + 26) % 26; }

        @Override
        public String hide(String text) {
            StringBuilder hidden = new StringBuilder(text.length());
            for (int i = 0; i < text.length(); i++) hidden.append(moved(text.charAt(i), by));
            return hidden.toString();
        }

        @Override public String show(String hidden) { return new Caesar(-by).hide(hidden); }

        static char moved(char c, int by) {
            if ('a' <= c && c <= 'z') return (char) ('a' + (c - 'a' + by) % 26);
            if (Character.isUpperCase(c)) return (char) ('A' + (c - 'A' + by) % 26);
            return c;
        }
    }

    static class Vigenere implements Cipher {
        private final String key;

        Vigenere(String key) { this.key = key; }

        private String turned(String text, boolean isHidden) {
            char[] letters = text.toCharArray();
            for (int i = 0, k = 0; i < letters.length; i++) {
                if (!Character.isLetter(letters[i])) continue;
                int by = key.charAt(k++ % key.length()) - 'a';
                letters[i] = Caesar.moved(letters[i], isHidden ? 26 - by : by);
            }
            return String.valueOf(letters);
        }

        @Override public String hide(String text) { return turned(text, false); }
        @Override public String show(String hidden) { return turned(hidden, true); }
    }

    static class Rails implements Cipher {
        private final int rails;

        Rails(int rails) { this.rails = rails; }

        private int[] order(int length) {
            int[] order = new int[length];
            for (int rail = 0, k = 0; rail < rails; rail++) {
                for (int i = 0; i < length; i++) {
                    int at = i % (2 * rails - 2);
                    if (Math.min(at, 2 * rails - 2 - at) == rail) order[k++] = i;
                }
            }
            return order;
        }

        @Override
        public String hide(String text) {
            StringBuilder hidden = new StringBuilder();
            for (int i : order(text.length())) hidden.append(text.charAt(i));
            return hidden.toString();
        }

        @Override
        public String show(String hidden) {
            StringBuilder text = new StringBuilder(hidden);
            int k = 0;
            for (int i : order(hidden.length())) text.setCharAt(i, hidden.charAt(k++));
            return text.toString();
        }
    }

    static class Runs implements Cipher {
        @Override
        public String hide(String text) {
            StringBuilder hidden = new StringBuilder();
            for (int i = 0, j; i < text.length(); i = j) {
                for (j = i; j < text.length() && text.charAt(j) == text.charAt(i); ) j++;
                if (j - i > 1) hidden.append(j - i);
                hidden.append(text.charAt(i));
            }
            return hidden.toString();
        }

        @Override
        public String show(String hidden) {
            StringBuilder text = new StringBuilder();
            int count = 0;
            for (char c : hidden.toCharArray()) {
                if (Character.isDigit(c)) {
                    count = 10 * count + Character.getNumericValue(c);
                    continue;
                }
                do text.append(c); while (--count > 0);
                count = 0;
            }
            return text.toString();
        }
    }

    static class Base64 implements Cipher {
        static final String LETTERS = "ABCDEFGHIJKLMNOPQRSTUVWXYZabcdefghijklmnopqrstuvwxyz0123456789+/";

        @Override
        public String hide(String text) {
            byte[] bytes = text.getBytes(StandardCharsets.UTF_8);
            StringBuilder hidden = new StringBuilder();
            for (int i = 0; i < bytes.length; i += 3) {
                int word = (bytes[i] & 0xFF) << 16;
                if (i + 1 < bytes.length) word |= (bytes[i + 1] & 0xFF) << 8;
                if (i + 2 < bytes.length) word |= bytes[i + 2] & 0xFF;
                for (int k = 0; k < 4; k++) hidden.append(i + k > bytes.length ? '=' : LETTERS.charAt(word >> 18 - 6 * k & 63));
            }
            return hidden.toString();
        }

        @Override
        public String show(String hidden) {
            int end = hidden.indexOf('=') < 0 ? hidden.length() : hidden.indexOf('=');
            byte[] bytes = new byte[end * 6 / 8];
            for (int i = 0, held = 0, bits = 0, k = 0; i < end; i++) {
                held = held << 6 | LETTERS.indexOf(hidden.charAt(i));
                bits += 6;
                if (bits >= 8) bytes[k++] = (byte) (held >> (bits -= 8));
            }
            return new String(bytes, StandardCharsets.UTF_8);
        }
    }

    static String hexadecimal(byte[] bytes) {
        StringBuilder text = new StringBuilder();
        for (byte b : bytes) text.append(Character.forDigit(b >> 4 & 15, 16)).append(Character.forDigit(b & 15, 16));
        return text.toString();
    }

    static int checked(byte[] bytes) {
        int sum = ~0;
        for (byte b : bytes) {
            sum ^= b & 0xFF;
            for (int k = 0; k < 8; k++) sum = (sum >>> 1) ^ (0xEDB88320 & -(sum & 1));
        }
        return ~sum;
    }

    static boolean isCard(String digits) {
        int sum = 0;
        for (int i = digits.length() - 1, place = 0; i >= 0; i--) {
            if (digits.charAt(i) == ' ') continue;
            int digit = digits.charAt(i) - '0';
            if (place++ % 2 == 1 && (digit *= 2) > 9) digit -= 9;
            sum += digit;
        }
        return sum % 10 == 0;
    }

    public static void main(String[] args) {
        Map<String, Cipher> ciphers = new LinkedHashMap<>();
        ciphers.put("caesar", new Caesar(3));
        ciphers.put("back", new Caesar(-29));
        ciphers.put("vigenere", new Vigenere("lemon"));
        ciphers.put("rails", new Rails(3));
        ciphers.put("runs", new Runs());
        ciphers.put("base64", new Base64());
        String[] texts = {"Attack at dawn, zebra!", "", "aaabccddddd", "caf\u00e9 \u2713", "Mississippi"};
        for (Map.Entry<String, Cipher> it : ciphers.entrySet()) {
            System.out.print(it.getKey());
            for (String text : texts) System.out.print(" | " + it.getValue().hide(text) + (it.getValue().keeps(text) ? "" : " (lost)"));
            System.out.println();
        }
        byte[] bytes = "123456789".getBytes();
        System.out.println(hexadecimal(bytes) + " " + Integer.toHexString(checked(bytes)) + " "
            + String.format("%08X", checked(new byte[] {-1, 0, 127})));
        System.out.println(isCard("4539 1488 0343 6467") + " " + isCard("8273 1232 7352 0569") + " "
            + Integer.toUnsignedString(checked(bytes)));
        StringBuilder reversed = new StringBuilder("desserts");
        reversed.reverse().insert(0, "~").insert(reversed.length(), 7).deleteCharAt(1);
        reversed.replace(0, 2, "<>").append(true).append('x').append(12L);
        System.out.println(reversed + " " + reversed.indexOf("s") + " " + reversed.lastIndexOf("s") + " " + reversed.charAt(2));
    }
}
