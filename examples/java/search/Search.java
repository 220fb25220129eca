import host.Io;

/** Looks for words in a text, by the table of Knuth, Morris and Pratt, and names what it finds. */
public class Search {
    private static final String TEXT = "Größe, größer, am größten: süß wie Käse für 3 €, \0 und \uD834\uDD1E.";
    private static final String[] WORDS = {"größ", "ß", "Käse", "€", "\0", "\uD834\uDD1E", "Kase", ""};

    public static void main(String[] arguments) {
        Utf8.write(TEXT);
        Io.write('\n');
        for (String word : WORDS) {
            int[] table = table(word);
            int count = 0;
            for (int place = find(word, table, 0); place >= 0; place = find(word, table, place + 1)) {
                Utf8.write(place);
                Io.write(' ');
                count++;
                if (word.length() == 0) {
                    break;
                }
            }
            Utf8.write(count);
            Io.write(' ');
            Utf8.write(named(word));
            Io.write('\n');
        }
    }

    /** For each front of the word, the length of its longest proper front that is also its end. */
    private static int[] table(String word) {
        int[] table = new int[word.length() + 1];
        int length = 0;
        for (int place = 1; place < word.length(); place++) {
            while (length > 0 && word.charAt(place) != word.charAt(length)) {
                length = table[length];
            }
            if (word.charAt(place) == word.charAt(length)) {
                length++;
            }
            table[place + 1] = length;
        }
        return table;
    }

    /** Where the word stands first from a place on, or -1. */
    private static int find(String word, int[] table, int from) {
        int found = 0;
        for (int place = from; place < TEXT.length(); place++) {
            if (found == word.length()) {
                return place - found;
            }
            char letter = TEXT.charAt(place);
            while (found > 0 && word.charAt(found) != letter) {
                found = table[found];
            }
            if (word.charAt(found) == letter) {
                found++;
            }
        }
        return found == word.length() ? TEXT.length() - found : -1;
    }

    /** A switch over strings asks for hashCode and equals. */
    private static String named(String word) {
        switch (word) {
            case "€":
                return "currency";
            case "\0":
                return "zero";
            case "ß":
            case "größ":
                return "letters";
            case "Aa":
            case "BB":
                return "equal hash codes";
            default:
                return word.equals("") ? "nothing" : "other";
        }
    }
}
