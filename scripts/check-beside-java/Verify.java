import java.io.ByteArrayInputStream;
import java.io.DataInputStream;
import java.io.IOException;
import java.nio.file.DirectoryStream;
import java.nio.file.Files;
import java.nio.file.Path;
import java.nio.file.Paths;
import java.util.ArrayList;
import java.util.HashMap;
import java.util.List;
import java.util.Map;

/** Links classes, each beside the others of its folder, and writes of each whether the verifier accepts it; prints its file before. */
public class Verify {
    /** Defines classes from bytes before any parent is asked. */
    static class Bytes extends ClassLoader {
        final Map<String, byte[]> files;

        Bytes(Map<String, byte[]> files) {
            super(Verify.class.getClassLoader());
            this.files = files;
        }

        @Override
        protected Class<?> loadClass(String name, boolean resolve) throws ClassNotFoundException {
            byte[] file = files.get(name);
            if (file == null) {
                return super.loadClass(name, resolve);
            }
            Class<?> found = findLoadedClass(name);
            return found != null ? found : defineClass(name, file, 0, file.length);
        }
    }

    public static void main(String[] words) throws Exception {
        Map<String, Map<String, byte[]>> folders = new HashMap<>();
        List<String> found = new ArrayList<>();
        for (String line : Files.readAllLines(Paths.get(words[0]))) {
            String[] parts = line.split("\t");
            if (!folders.containsKey(parts[1])) {
                folders.put(parts[1], classesOf(Paths.get(parts[1])));
            }
            Map<String, byte[]> files = new HashMap<>(folders.get(parts[1]));
            String name = parts[2];
            System.out.println(parts[0]);
            files.put(name, Files.readAllBytes(Paths.get(parts[0])));
            found.add(parts[0] + "\t" + link(new Bytes(files), name));
        }
        Files.write(Paths.get(words[1]), found);
    }

    /** Asking for a class's methods links it, and so verifies it. */
    static String link(Bytes loader, String name) {
        try {
            loader.loadClass(name).getDeclaredMethods();
            return "Accepted";
        } catch (Throwable error) {
            return error.getClass().getSimpleName();
        }
    }

    static Map<String, byte[]> classesOf(Path folder) throws IOException {
        Map<String, byte[]> files = new HashMap<>();
        try (DirectoryStream<Path> paths = Files.newDirectoryStream(folder, "*.class")) {
            for (Path path : paths) {
                byte[] file = Files.readAllBytes(path);
                files.put(nameOf(file), file);
            }
        }
        return files;
    }

    /** The name of the class of a file. */
    static String nameOf(byte[] file) throws IOException {
        DataInputStream in = new DataInputStream(new ByteArrayInputStream(file));
        in.readLong();
        Object[] constants = new Object[in.readUnsignedShort()];
        for (int index = 1; index < constants.length; index++) {
            switch (in.readUnsignedByte()) {
                case 1 -> constants[index] = in.readUTF();
                case 7 -> constants[index] = in.readUnsignedShort();
                case 8, 16 -> in.readUnsignedShort();
                case 15 -> in.skipBytes(3);
                case 5, 6 -> {
                    in.readLong();
                    index++;
                }
                default -> in.readInt();
            }
        }
        in.readUnsignedShort();
        return ((String) constants[(Integer) constants[in.readUnsignedShort()]]).replace('/', '.');
    }
}
