/** Literals, charAt, hashCode and equals. */
public class Strings {
    public static void main(String[] arguments) {
        String text = "the quick brown fox jumps over the lazy dog";
        int sum = 0;
        for (int i = 0; i < 120_000; i++) {
            sum += text.hashCode();
            for (int k = 0; k < text.length(); k++) {
                sum = sum * 3 + text.charAt(k);
            }
            if (text.equals("the quick brown fox jumps over the lazy cat")) {
                sum++;
            }
        }
        host.Io.write(sum);
    }
}
