import host.Io;

/** Writes what it reads, up to a full stop; where nothing waits it asks again. */
final class Echo {
    public static void main(String[] args) {
        while (true) {
            int read = Io.read();
            if (read == '.') {
                return;
            }
            if (read >= 0) {
                Io.write(read);
            }
        }
    }
}
