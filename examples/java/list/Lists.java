import host.Io;

/** Works with a linked list of words. */
public class Lists {
    public static void main(String[] arguments) {
        LinkedList<String> words = new LinkedList<String>("one", "two", "three", "four");
        print(words);
        words.reverse();
        words.add("zero");
        print(words);
        number(words.size());
        number(longest(words, 3).length());
        number(words.contains("three") ? 1 : 0);
        number(words.contains("five") ? 1 : 0);
        number(Sequence.same(words, new LinkedList<Object>("four", "three", "two", "one", "zero")) ? 1 : 0);
        number((int) words.steps());
        try {
            new LinkedList<Object>().cursor().next();
        } catch (IllegalStateException fault) {
            write(fault.getMessage());
        }
        Io.write('\n');
    }

    /** The first of the longest words with more letters than given, or an empty one. */
    private static String longest(final Sequence<String> words, final int least) {
        class Longest {
            private String found = "";

            String search() {
                for (Cursor<String> cursor = words.cursor(); cursor.hasNext();) {
                    String word = cursor.next();
                    if (word.length() > least && word.length() > found.length()) {
                        found = word;
                    }
                }
                return found;
            }
        }
        return new Longest().search();
    }

    private static void print(Sequence<String> words) {
        Cursor<String> cursor = words.cursor();
        while (cursor.hasNext()) {
            write(cursor.next());
            Io.write(cursor.hasNext() ? ' ' : '\n');
        }
    }

    private static void write(String text) {
        for (int place = 0; place < text.length(); place++) {
            Io.write(text.charAt(place));
        }
    }

    private static void number(int number) {
        if (number >= 10) {
            Io.write('0' + number / 10);
        }
        Io.write('0' + number % 10);
        Io.write(' ');
    }
}
