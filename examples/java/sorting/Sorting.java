import host.Io;

/** Sorts words by several orders, and numbers of each small kind. */
public class Sorting {
    /** The shorter word first. */
    private static class ByLength implements Order<String> {
        @Override
        public boolean before(String first, String second) {
            return first.length() < second.length();
        }
    }

    public static void main(String[] arguments) {
        String[] words = {"pear", "fig", "banana", "apple", "kiwi", "date", "plum"};
        Order<String> byLength = new ByLength();
        Order<String> alphabetical = new Order<String>() {
            @Override
            public boolean before(String first, String second) {
                return compare(first, second) < 0;
            }
        };
        Order.sort(words, alphabetical);
        print(words);
        Order.sort(words, byLength);
        print(words);
        Order.sort(words, byLength.reversed());
        print(words);
        Order.sort(words, byLength.reversed().reversed());
        print(words);
        print(sorted(new byte[] {5, -3, 127, -128, 0}));
        print(sorted(new short[] {300, -300, 32767, -32768, 0}));
        print(sorted('s', 'o', 'r', 't'));
    }

    /** Below 0 where the first word comes first, above 0 where the second does. */
    private static int compare(String first, String second) {
        int common = first.length() < second.length() ? first.length() : second.length();
        for (int place = 0; place < common; place++) {
            int difference = first.charAt(place) - second.charAt(place);
            if (difference != 0) {
                return difference;
            }
        }
        return first.length() - second.length();
    }

    /** By exchanges of neighbours. */
    private static int[] sorted(byte[] numbers) {
        for (int end = numbers.length - 1; end > 0; end--) {
            for (int place = 0; place < end; place++) {
                if (numbers[place] > numbers[place + 1]) {
                    byte larger = numbers[place];
                    numbers[place] = numbers[place + 1];
                    numbers[place + 1] = larger;
                }
            }
        }
        int[] result = new int[numbers.length];
        for (int place = 0; place < result.length; place++) {
            result[place] = numbers[place];
        }
        return result;
    }

    /** By selection of the smallest. */
    private static int[] sorted(short[] numbers) {
        int[] result = new int[numbers.length];
        for (int place = 0; place < result.length; place++) {
            int smallest = place;
            for (int other = place + 1; other < numbers.length; other++) {
                smallest = numbers[other] < numbers[smallest] ? other : smallest;
            }
            short number = numbers[smallest];
            numbers[smallest] = numbers[place];
            result[place] = number;
        }
        return result;
    }

    /** By counting. */
    private static String[] sorted(char... letters) {
        int[] counts = new int[26];
        for (char letter : letters) {
            counts[letter - 'a']++;
        }
        int next = 0;
        for (int letter = 0; letter < counts.length; letter++) {
            for (int count = counts[letter]; count > 0; count--) {
                letters[next++] = (char) ('a' + letter);
            }
        }
        for (char letter : letters) {
            Io.write(letter);
        }
        return new String[0];
    }

    private static void print(String[] words) {
        for (String word : words) {
            for (int place = 0; place < word.length(); place++) {
                Io.write(word.charAt(place));
            }
            Io.write(' ');
        }
        Io.write('\n');
    }

    private static void print(int[] numbers) {
        for (int number : numbers) {
            if (number < 0) {
                Io.write('-');
            }
            digits(number < 0 ? number : -number);
            Io.write(' ');
        }
        Io.write('\n');
    }

    /** The digits of a number that isn't positive. */
    private static void digits(int negative) {
        if (negative <= -10) {
            digits(negative / 10);
        }
        Io.write('0' - negative % 10);
    }
}
