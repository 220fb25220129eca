import java.io.*;
import java.lang.reflect.*;
import java.net.*;
import java.nio.file.*;

/**
 * Runs the class Main of each package that the words behind the folder name, and prints what it wrote, in hexadecimal, and how it ended:
 * Running where it did not within the limit, and no more are run behind it, since it may still write.
 */
public final class Run {
    /** Milliseconds, a hundred times what the longest takes of those that end. */
    private static final int LIMIT = 20_000;

    public static void main(String[] words) throws Exception {
        URL[] at = { new File(words[0]).toURI().toURL() };
        for (int k = 1; k < words.length; k++) {
            host.Io.written = new ByteArrayOutputStream();
            String end = "Returned";
            final String name = words[k];
            final Throwable[] thrown = new Throwable[1];
            Thread thread = new Thread(null, () -> {
                try (URLClassLoader loader = new URLClassLoader(at)) {
                    Method main = Class.forName(name + ".Main", true, loader).getMethod("main", String[].class);
                    main.setAccessible(true);
                    main.invoke(null, (Object) new String[0]);
                } catch (InvocationTargetException e) {
                    thrown[0] = e.getCause();
                } catch (Throwable e) {
                    thrown[0] = e;
                }
            }, "run", 1 << 24);
            thread.setDaemon(true);
            thread.start();
            thread.join(LIMIT);
            boolean runs = thread.isAlive();
            if (runs) end = "Running";
            else if (thrown[0] != null) end = "Threw " + thrown[0].getClass().getName().replace('.', '/');
            StringBuilder shown = new StringBuilder();
            for (byte b : host.Io.written.toByteArray()) shown.append(String.format("%02x", b));
            System.out.println(name + " [" + shown + "] " + end);
            if (runs) System.exit(0);
        }
    }
}
