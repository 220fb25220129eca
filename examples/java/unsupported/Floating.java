import host.Io;

/** Outside the profile: a constant and arithmetic of float. */
public class Floating {
    public static void main(String[] arguments) {
        float half = 1.5f * arguments.length;
        Io.write((int) half);
    }
}
