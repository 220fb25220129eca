import host.Io;

/** Outside the profile: a native method of the guest. */
public class Foreign {
    private static native int answer();

    public static void main(String[] arguments) {
        Io.write(answer());
    }
}
