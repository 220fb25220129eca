import host.Io;

/** Outside the profile: a lambda, which javac writes with invokedynamic. */
public class Lambda {
    public static void main(String[] arguments) {
        Runnable action = () -> Io.write('L');
        action.run();
    }
}
