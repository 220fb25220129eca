import java.nio.file.Files;
import java.nio.file.Paths;

/** Loads, verifies and initializes the classes whose names stand in a file, one a line. */
public class Load {
    public static void main(String[] words) throws Exception {
        for (String name : Files.readAllLines(Paths.get(words[0]))) {
            Class.forName(name);
        }
    }
}
