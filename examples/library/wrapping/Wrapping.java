import java.util.ArrayList;
import java.util.List;
import java.util.Scanner;
import java.util.StringJoiner;

/** Sets paragraphs in lines of a width: to the left, to the right, in the middle, or in a block. */
public class Wrapping {
    interface Setter {
        String set(List<String> words, int width, boolean last);
    }

    static int length(List<String> words) {
        int n = words.size() - 1;
        for (String word : words) {
            n += word.length();
        }
        return n;
    }

    static String spaces(int n) {
        StringBuilder out = new StringBuilder();
        while (out.length() < n) {
            out.append(' ');
        }
        return out.toString();
    }

    static final Setter LEFT = new Setter() {
        @Override
        public String set(List<String> words, int width, boolean last) {
            return String.join(" ", words);
        }
    };

    static class Shifted implements Setter {
        private final int part;

        Shifted(int part) {
            this.part = part;
        }

        @Override
        public String set(List<String> words, int width, boolean last) {
            return spaces((width - length(words)) / part) + LEFT.set(words, width, last);
        }
    }

    static class Block implements Setter {
        @Override
        public String set(List<String> words, int width, boolean last) {
            if (last || words.size() == 1) {
                return LEFT.set(words, width, last);
            }
            int gaps = words.size() - 1;
            int more = width - length(words) + gaps;
            StringBuilder out = new StringBuilder(words.get(0));
            for (int i = 1; i < words.size(); i++) {
                out.append(spaces(more / gaps + (i <= more % gaps ? 1 : 0))).append(words.get(i));
            }
            return out.toString();
        }
    }

    static String wrapped(String text, int width, Setter setter) {
        StringJoiner lines = new StringJoiner("\n");
        List<String> words = new ArrayList<>();
        for (String word : text.trim().split("\\s+")) {
            if (!words.isEmpty() && length(words) + 1 + word.length() > width) {
                lines.add(setter.set(words, width, false));
                words.clear();
            }
            words.add(word);
        }
        return lines.add(setter.set(words, width, true)).toString();
    }

    public static void main(String[] args) {
        Setter[] setters = {LEFT, new Shifted(1), new Shifted(2), new Block()};
        Scanner in = new Scanner(System.in);
        for (int k = 0; in.hasNextLine(); k++) {
            StringBuilder paragraph = new StringBuilder();
            while (in.hasNextLine()) {
                String line = in.nextLine();
                if (line.isEmpty()) {
                    break;
                }
                paragraph.append(line).append('\n');
            }
            System.out.println(wrapped(paragraph.toString(), 32, setters[k % setters.length]));
            System.out.println("--------------------------------");
        }
    }
}
